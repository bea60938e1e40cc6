//! Times: the two sides in turn, the best and the median of many rounds.
use std::hint::black_box;
use std::time::{Duration, Instant};

const WARM_UP: usize = 5;
const ROUNDS: usize = 51;

/// So many calls, one behind the other, and the time of one.
fn time(calls: u32, side: &mut dyn FnMut() -> u64) -> Duration {
    let start = Instant::now();
    for _ in 0..calls {
        black_box(side());
    }
    start.elapsed() / calls
}

fn micros(d: Duration) -> f64 {
    d.as_nanos() as f64 / 1000.0
}

pub fn head() {
    println!("| | ours, us | Rust, us | ours / Rust | ours, median | Rust, median |");
    println!("|---|---|---|---|---|---|");
}

/// The best and the median of one side's rounds, in microseconds.
pub struct Times {
    pub best: f64,
    pub median: f64,
}

fn times(mut rounds: Vec<Duration>) -> Times {
    rounds.sort();
    Times { best: micros(rounds[0]), median: micros(rounds[rounds.len() / 2]) }
}

/// So many calls of each side in every round, the sides in turn, each of them first as often as another. Before they are timed, all give the same answer.
pub fn race<const N: usize>(name: &str, calls: u32, mut sides: [&mut dyn FnMut() -> u64; N]) -> [Times; N] {
    let answers = sides.each_mut().map(|side| side());
    assert!(answers.iter().all(|a| *a == answers[0]), "{name}: {answers:?}");
    let mut rounds = [const { Vec::new() }; N];
    for round in 0..WARM_UP + ROUNDS {
        for side in (0..N).map(|k| (round + k) % N) {
            let took = time(calls, sides[side]);
            if WARM_UP <= round {
                rounds[side].push(took);
            }
        }
    }
    rounds.map(times)
}

/// Short times with one place more.
fn shown(micros: f64) -> String {
    if micros < 10.0 {
        format!("{micros:.2}")
    } else {
        format!("{micros:.1}")
    }
}

/// One row of the table.
pub fn row(name: &str, ours: &mut dyn FnMut() -> u64, rusts: &mut dyn FnMut() -> u64) {
    row_of(name, 1, ours, rusts);
}

/// The same for calls that are short beside the clock: so many at a time.
pub fn row_of(name: &str, calls: u32, ours: &mut dyn FnMut() -> u64, rusts: &mut dyn FnMut() -> u64) {
    let [ours, rusts] = race(name, calls, [ours, rusts]);
    let ratio = ours.best / rusts.best;
    let [best, theirs, mid, their_mid] = [ours.best, rusts.best, ours.median, rusts.median].map(shown);
    println!("| {name} | {best} | {theirs} | {ratio:.2} | {mid} | {their_mid} |");
}
