//! The model's state as the archive has it, field by field, and what the numbers of any state say (B1 and B2 of docs/DECISIONS.md).
use crate::model::{self, Cursor, Lengths, Slot, Spoiled, Weave};
use crate::raw;

fn room(s: &Slot) -> raw::Room {
    let c = &s.cursor;
    raw::Room {
        handle: s.handle,
        from: c.from,
        to: c.to,
        limit: c.limit,
        desc: c.desc as u64,
        size: c.size,
        filter: c.filter,
    }
}

pub fn state(s: &model::State) -> raw::State {
    let w = &s.weave;
    raw::State {
        staging_len: s.lengths.staging,
        card_len: s.lengths.card,
        manifest_len: s.lengths.manifest,
        index_len: s.lengths.index,
        used: s.used,
        next: s.next,
        faulted: s.faulted as u64,
        running: w.running as u64,
        spoiled: match w.spoiled {
            Spoiled::Not => 0,
            Spoiled::Overspent => -6,
            Spoiled::Panicked => -1,
        },
        turn: w.turn,
        late: w.late as u64,
        staged: w.staged,
        count: w.count,
        units: w.units,
        res_max: w.res_max,
        time: w.time,
        opened: w.opened,
        trace: w.trace,
        rooms: [room(&w.slots[0]), room(&w.slots[1]), room(&w.slots[2]), room(&w.slots[3])],
    }
}

/// "A flag that is not 0 says yes"
fn yes(flag: u64) -> bool {
    flag != 0
}

/// "a mark that is no reason says panic"
fn mark(spoiled: i64) -> Spoiled {
    match spoiled {
        0 => Spoiled::Not,
        -6 => Spoiled::Overspent,
        _ => Spoiled::Panicked,
    }
}

fn slot(r: &raw::Room) -> Slot {
    let cursor = Cursor { filter: r.filter, size: r.size, from: r.from, to: r.to, limit: r.limit, desc: yes(r.desc) };
    Slot { handle: r.handle, cursor }
}

pub fn said(s: &raw::State) -> model::State {
    model::State {
        lengths: Lengths { staging: s.staging_len, card: s.card_len, manifest: s.manifest_len, index: s.index_len },
        used: s.used,
        next: s.next,
        faulted: yes(s.faulted),
        weave: Weave {
            running: yes(s.running),
            spoiled: mark(s.spoiled),
            turn: s.turn,
            late: yes(s.late),
            staged: s.staged,
            count: s.count,
            units: s.units,
            res_max: s.res_max,
            time: s.time,
            trace: s.trace,
            opened: s.opened,
            slots: [slot(&s.rooms[0]), slot(&s.rooms[1]), slot(&s.rooms[2]), slot(&s.rooms[3])],
        },
    }
}
