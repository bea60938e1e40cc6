//! The differential run from the command line.
//!
//!     differ [--calls N] [--seed S]     lives from seed S on, until N calls are made
//!     differ --life L                   one life, every call printed
//!     differ --piped ..                 the archive in a program of its own, on a machine that could link it too
use loafheron::differ::{self, Way};
use std::process::ExitCode;
use std::time::Instant;

const CALLS: u64 = 200_000;
const SEED: u64 = 1;

/// Takes a flag and its number out of the arguments.
fn number(args: &mut Vec<String>, flag: &str) -> Option<u64> {
    let at = args.iter().position(|a| a == flag)?;
    let said = args.get(at + 1).and_then(|n| n.replace(['_', ','], "").parse().ok());
    args.drain(at..args.len().min(at + 2));
    Some(said.unwrap_or_else(|| panic!("{flag} wants a number")))
}

fn main() -> ExitCode {
    let args = &mut std::env::args().skip(1).collect::<Vec<String>>();
    let (life, calls, seed) = (number(args, "--life"), number(args, "--calls"), number(args, "--seed"));
    let way = if args.iter().any(|a| a == "--piped") { Way::Piped } else { Way::Here };
    if let Some(unknown) = args.iter().find(|a| *a != "--piped") {
        panic!("{unknown}: not an argument of this program");
    }
    if let Some(life) = life {
        return match differ::live_aloud(way, life) {
            Ok(calls) => {
                println!("life {life}: {calls} calls, no difference");
                ExitCode::SUCCESS
            }
            Err(difference) => {
                println!("{}", differ::told(life, &difference));
                ExitCode::FAILURE
            }
        };
    }
    let (calls, seed) = (calls.unwrap_or(CALLS), seed.unwrap_or(SEED));
    let start = Instant::now();
    let run = differ::run(way, seed, calls);
    if let Some((life, difference)) = run.failed {
        println!("{}", differ::told(life, &difference));
        println!("seed {seed}: {} calls in {} lives before it came apart", run.calls, run.lives);
        return ExitCode::FAILURE;
    }
    for ((call, answer), n) in &run.tally {
        println!("{call:8} {answer:24} {n:9}");
    }
    println!(
        "seed {seed}: {} calls in {} lives, no difference ({:.1} s)",
        run.calls,
        run.lives,
        start.elapsed().as_secs_f64(),
    );
    ExitCode::SUCCESS
}
