//! The kinds of lives. Each sets up a box and lives in it until something differs or it has had enough.
mod budget;
mod crossed;
mod damage;
mod fields;
mod full;
mod hostile;
mod long;
mod misfits;
mod pages;
mod plain;
mod sizes;
mod tables;

use super::asks::{self, Harm};
use super::dice::Dice;
use super::stock;
use super::twin::{Agreed, Buffer, Call, Said, Twin};

type Life = fn(&mut Dice, &mut Twin) -> Agreed<()>;

pub const KINDS: [(&str, Life); 18] = [
    ("an ordinary life", plain::good),
    ("each argument bad alone", plain::one_bad),
    ("two arguments bad at once", plain::two_bad),
    ("each field bad alone, and each two at once", fields::fields),
    ("a card damaged at every offset", damage::card),
    ("staged bytes damaged at every offset", damage::staging),
    ("a manifest damaged", damage::manifest),
    ("hostile states", hostile::states),
    ("states of C's own making", crossed::states),
    ("the last event numbers", hostile::last_numbers),
    ("budgets at the edge", budget::edges),
    ("staging and card full", full::full),
    ("buffers of their greatest sizes", full::large),
    ("pages at every capacity", pages::capacities),
    ("hundreds of weaves", long::weaves),
    ("sizes at the edge", sizes::sizes),
    ("tables too short", tables::short),
    ("tables that do not fit", misfits::misfits),
];

/// What this box does, more or less.
pub struct Habits {
    pub topics: Vec<Vec<u8>>,
    /// the longest payload
    pub payload: usize,
    /// the largest out buffer
    pub page: u64,
    pub harm: Harm,
    /// the greatest budget
    pub budget: u64,
}

impl Habits {
    pub fn new() -> Habits {
        Habits { topics: stock::topics(), payload: 60, page: 1_500, harm: Harm(0), budget: 5_000 }
    }
}

/// No record is shorter.
const SHORTEST: usize = 136;

/// Buffers lent, the table with entries for as many records as the card can hold, or some more; and a card of so many records mounted.
pub fn set_up(d: &mut Dice, twin: &mut Twin, h: &Habits, modules: u64, records: u64, spare: usize) -> Agreed<Said> {
    let used = stock::card(d, records, &h.topics);
    let n = used.len();
    let mut card = used;
    card.extend(d.bytes(spare));
    let manifest = stock::manifest(d, modules, &h.topics);
    let (memory, staging) = (4_096 + 8 * d.index(600) + d.index(8), 65_536 + d.index(17));
    let bytes = d.bytes(memory);
    twin.lend(Buffer::Memory, bytes);
    let bytes = d.bytes(staging);
    twin.lend(Buffer::Staging, bytes);
    let entries = card.len() / SHORTEST + d.index(3);
    twin.lend_index(stock::table(d, entries as u64));
    twin.lend(Buffer::Card, card);
    twin.lend(Buffer::Manifest, manifest);
    twin.call(Call::Mount { used: n as u64 })
}

/// One call, as the state suggests.
pub fn step(d: &mut Dice, twin: &mut Twin, h: &Habits) -> Agreed<Said> {
    // only a new mount ends "faulted"
    if twin.state.faulted && !twin.state.weave.running && d.one_in(3) {
        let used = twin.state.used;
        return twin.call(Call::Mount { used });
    }
    let begins = if twin.state.weave.running { d.one_in(60) } else { !d.one_in(6) };
    if begins {
        let budget = d.below(h.budget + 1);
        let call = asks::begin(d, budget);
        return twin.call(call);
    }
    let call = any_call(d, twin, h);
    twin.call(call)
}

/// Any call but mount and begin.
pub fn any_call(d: &mut Dice, twin: &mut Twin, h: &Habits) -> Call {
    let t = &h.topics;
    match d.below(40) {
        0..=4 => asks::ingress(d, t, h.payload),
        5..=14 => asks::write(d, twin, t, h.payload, h.harm),
        15..=19 => asks::read(d, twin, t, h.page, h.harm),
        20..=24 => asks::open(d, twin, t, h.harm),
        25..=31 => asks::next(d, twin, h.page, h.harm),
        32..=33 => asks::close(d, twin, h.harm),
        34..=36 => asks::module_return(d),
        _ => asks::look_up(d, twin),
    }
}
