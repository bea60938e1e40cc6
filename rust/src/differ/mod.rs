//! The differential run: seeded lives of a box, each call made by the twin and by the archive.
mod asks;
pub mod bands;
mod charge;
mod del;
mod dice;
mod field;
mod index;
mod lives;
mod stock;
mod twin;
mod view;

use crate::lent::{Caller, Here, Piped};
use dice::Dice;
use std::panic::{catch_unwind, AssertUnwindSafe};
use std::rc::Rc;
use twin::Twin;
pub use twin::{Difference, Tally};

/// Where the archive's side runs.
#[derive(Clone, Copy, Debug, PartialEq, Eq)]
pub enum Way {
    /// as this machine has it: linked on x86-64, elsewhere in a program of its own
    Here,
    /// in a program of its own, on any machine
    Piped,
}

impl Way {
    fn archive(self) -> Rc<dyn Caller> {
        match self {
            Way::Here => Rc::new(Here::default()),
            Way::Piped => Rc::new(Piped::default()),
        }
    }
}

/// What a run came to.
pub struct Run {
    pub calls: u64,
    pub lives: u64,
    pub tally: Tally,
    /// the life that came apart, and why
    pub failed: Option<(u64, Difference)>,
}

/// One life: which kind it is, and all that happens in it, hangs on its seed alone.
fn live(archive: &Rc<dyn Caller>, seed: u64, aloud: bool) -> (Twin, Result<(), Difference>) {
    let mut dice = Dice::new(seed);
    let mut twin = Twin::new(archive.clone());
    twin.aloud = aloud;
    let (name, life) = lives::KINDS[(seed % lives::KINDS.len() as u64) as usize];
    if aloud {
        println!("life {seed}: {name}");
    }
    let end = life(&mut dice, &mut twin);
    (twin, end)
}

/// One life, every call printed: how many calls it had.
pub fn live_aloud(way: Way, seed: u64) -> Result<u64, Difference> {
    let (twin, end) = live(&way.archive(), seed, true);
    end.map(|()| twin.calls)
}

/// Lives from this seed on, until so many calls are made or two answers differ.
pub fn run(way: Way, seed: u64, calls: u64) -> Run {
    let archive = way.archive();
    let mut run = Run { calls: 0, lives: 0, tally: Tally::new(), failed: None };
    while run.calls < calls {
        let life = seed.wrapping_add(run.lives);
        let Ok((twin, end)) = catch_unwind(AssertUnwindSafe(|| live(&archive, life, false))) else {
            run.failed = Some((life, Difference("a panic, told above".into())));
            break;
        };
        run.calls += twin.calls;
        run.lives += 1;
        for (answer, n) in twin.tally {
            *run.tally.entry(answer).or_insert(0) += n;
        }
        if let Err(difference) = end {
            run.failed = Some((life, difference));
            break;
        }
    }
    run
}

/// How a failing life is told, with the command that plays it again.
pub fn told(life: u64, difference: &Difference) -> String {
    format!("life {life} came apart:\n  {}\nto play it again: tests/differ --life {life}", difference.0)
}
