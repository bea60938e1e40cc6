//! States that no sequence of calls leads to.
use super::*;
use crate::model::{Slot, Spoiled};

/// One field of the state becomes a number at an edge, or an entry of the table is wrong.
fn twist(d: &mut Dice, twin: &mut Twin, modules: u64) {
    if d.one_in(12) {
        return misfits::some_entry(d, twin);
    }
    let lent = twin.lent.lengths();
    let s = &mut twin.state;
    let w = &mut s.weave;
    let slot = d.index(4);
    match d.below(26) {
        0 => s.lengths.staging = d.edge(lent.staging),
        1 => s.lengths.card = d.edge(lent.card),
        2 => s.lengths.manifest = d.edge(lent.manifest),
        3 => s.used = d.edge(s.used),
        4 => s.used = d.edge(lent.card),
        5 => s.next = d.edge(s.next),
        6 => (s.next, w.count) = ((1 << 63) - d.below(4), d.below(5)),
        7 => s.faulted = !s.faulted,
        8 => w.running = !w.running,
        9 => w.spoiled = *d.pick(&[Spoiled::Not, Spoiled::Overspent, Spoiled::Panicked]),
        10 => w.turn = d.edge(modules),
        11 => w.late = !w.late,
        12 => w.staged = d.edge(w.staged),
        13 => w.staged = d.edge(lent.staging),
        14 => w.count = d.edge(w.count),
        15 => w.units = d.edge(w.res_max),
        16 => w.res_max = d.edge(w.units),
        17 => (w.time, w.trace) = (d.word(), d.bytes(32).try_into().unwrap()),
        18 => w.opened = d.edge(65_535),
        19 => w.slots[slot].handle = d.edge(w.opened),
        20 => w.slots[slot] = w.slots[d.index(4)],
        21 => w.slots[slot] = any_slot(d, s.next),
        22 => w.slots[slot].cursor.size = d.edge(64),
        23 => s.lengths.index = d.edge(lent.index),
        // more than the table has entries for
        24 => s.next = lent.index + d.below(4),
        _ => w.slots[slot] = Slot::FREE,
    }
}

/// A slot of any content, free or not. Its filter may be one that no tl_open takes: the head of an old card's topic.
fn any_slot(d: &mut Dice, next: u64) -> Slot {
    let mut slot = Slot::FREE;
    slot.handle = d.below(6);
    slot.cursor.size = d.below(8);
    slot.cursor.filter[..4].copy_from_slice(*d.pick(&[b"loop", b"loop", b"\x7f~ !"]));
    slot.cursor.filter[40] = d.byte();
    slot.cursor.from = d.edge(1);
    slot.cursor.to = d.edge(next);
    slot.cursor.limit = d.edge(3);
    slot.cursor.desc = d.one_in(2);
    slot
}

pub fn states(d: &mut Dice, twin: &mut Twin) -> Agreed<()> {
    let h = Habits::new();
    let modules = 1 + d.below(3);
    set_up(d, twin, &h, modules, 5, 3_000)?;
    for _ in 0..60 {
        for _ in 0..d.below(8) {
            step(d, twin, &h)?;
        }
        let sound = twin.state;
        for _ in 0..1 + d.below(2) {
            twist(d, twin, modules);
        }
        for _ in 0..1 + d.below(4) {
            step(d, twin, &h)?;
        }
        if !d.one_in(4) {
            twin.state = sound;
        }
        if d.one_in(10) {
            let used = twin.state.used;
            twin.call(Call::Mount { used })?;
        }
    }
    Ok(())
}

/// A box near the last event number, 2^63 - 1, whose card is younger than that. (No table is as long, so that its weaves are discarded.)
pub fn last_numbers(d: &mut Dice, twin: &mut Twin) -> Agreed<()> {
    let h = Habits { budget: 1_000_000, ..Habits::new() };
    for _ in 0..12 {
        set_up(d, twin, &h, 1, 2, 4_000)?;
        twin.state.next = (1 << 63) - d.below(6);
        twin.call(Call::Begin { args: damage::weave_args(u64::MAX) })?;
        for _ in 0..8 {
            let call = match d.below(4) {
                0 => asks::ingress(d, &h.topics, 20),
                1 => asks::write(d, twin, &h.topics, 20, Harm(0)),
                2 => asks::read(d, twin, &h.topics, 900, Harm(0)),
                _ => Call::LookUp { id: (1 << 63) - d.below(8) + d.below(4) },
            };
            twin.call(call)?;
        }
        twin.call(Call::Return { code: 0 })?;
        twin.call(Call::LookUp { id: 1 << 63 })?;
        step(d, twin, &h)?;
    }
    Ok(())
}
