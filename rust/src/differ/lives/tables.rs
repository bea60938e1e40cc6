//! Tables beside the card that are too short for it, or that have another length than at mount.
use super::*;
use crate::model::Slot;

/// Too short at mount, too short for what is staged, and of another length under way.
pub fn short(d: &mut Dice, twin: &mut Twin) -> Agreed<()> {
    let h = Habits::new();
    let records = 2 + d.below(4);
    set_up(d, twin, &h, 1, records, 3_000)?;
    let used = twin.state.used;
    at_mount(d, twin, records)?;
    for spare in 0..4_u64 {
        for staged in spare.saturating_sub(1)..=spare + 2 {
            twin.lend_index(stock::table(d, records + spare));
            twin.call(Call::Mount { used })?;
            at_commit(d, twin, staged)?;
        }
    }
    let entries = twin.lent.lengths().index;
    for next in [entries, entries + 1, entries + 2, entries + 3, 1 << 32, (1 << 63) - 3] {
        twin.call(Call::Mount { used })?;
        for staged in 0..3 {
            number_beyond(d, twin, next, staged)?;
        }
        other_length(d, twin)?;
    }
    Ok(())
}

/// Each length up to one more than the card needs; and the same with a last record that is not sound, as -3 comes before -5.
fn at_mount(d: &mut Dice, twin: &mut Twin, records: u64) -> Agreed<()> {
    let used = twin.state.used;
    let reserved = twin.lent.index[records as usize - 1] as u64 + 92 + d.below(36);
    for entries in 0..=records + 1 {
        twin.lend_index(stock::table(d, entries));
        for byte in [1, 0] {
            twin.poke(Buffer::Card, reserved, &[byte]);
            twin.call(Call::Mount { used })?;
        }
    }
    Ok(())
}

/// A weave of so many events, then an empty one. The events may not be sound, or not fit the card.
fn at_commit(d: &mut Dice, twin: &mut Twin, staged: u64) -> Agreed<()> {
    twin.call(Call::Begin { args: damage::weave_args(0) })?;
    let most = if d.one_in(4) { 3_000 } else { 60 };
    for _ in 0..staged {
        let n = d.index(most);
        twin.call(Call::Ingress { topic: b"loop/take".to_vec(), payload: d.bytes(n) })?;
    }
    if staged > 0 && d.one_in(4) {
        // a reserved byte of the first
        twin.poke(Buffer::Staging, 92 + d.below(36), &[1]);
    }
    twin.call(Call::Return { code: d.below(2) as i64 })?;
    let next = twin.state.next;
    for id in next.saturating_sub(2)..=next {
        twin.call(Call::LookUp { id })?;
    }
    twin.call(Call::Begin { args: damage::weave_args(u64::MAX) })?;
    look(d, twin, next.saturating_sub(1))?;
    twin.call(Call::Return { code: 0 })?;
    Ok(())
}

/// A next number at the table's end, or beyond it: what is asked of the room, also where nothing is staged.
fn number_beyond(d: &mut Dice, twin: &mut Twin, next: u64, staged: u64) -> Agreed<()> {
    let (before, entries) = (twin.state, twin.lent.lengths().index);
    twin.call(Call::Begin { args: damage::weave_args(u64::MAX) })?;
    twin.state.next = next;
    for _ in 0..staged {
        twin.call(Call::Ingress { topic: b"a".to_vec(), payload: vec![] })?;
    }
    look(d, twin, entries)?;
    for id in [entries, entries + 1, entries + 2, next - 1] {
        twin.call(Call::LookUp { id })?;
    }
    twin.call(Call::Return { code: 0 })?;
    twin.state = before;
    Ok(())
}

/// A longer and a shorter table than at mount: with no weave running, and in one.
fn other_length(d: &mut Dice, twin: &mut Twin) -> Agreed<()> {
    let n = twin.lent.index.len() as u64;
    for running in [false, true] {
        if running {
            twin.call(Call::Begin { args: damage::weave_args(u64::MAX) })?;
        }
        let entries = *d.pick(&[n + 1, n - 1, 2 * n, 0]);
        let right = twin.lend_index(stock::table(d, entries));
        look(d, twin, 1)?;
        twin.call(Call::LookUp { id: 1 })?;
        twin.call(Call::Return { code: 0 })?;
        // to the others it is not lent
        let open = damage::open_all(d, twin, false);
        twin.call(open)?;
        twin.lend_index(right);
    }
    twin.call(Call::Return { code: 0 })?;
    Ok(())
}

/// A next with a cursor of any kind, near this number. The state is put back.
pub fn look(d: &mut Dice, twin: &mut Twin, id: u64) -> Agreed<Said> {
    let state = twin.state;
    let next = state.next;
    let windows = [
        (0, u64::MAX),
        (id, u64::MAX),
        (0, id.saturating_add(1)),
        // without it
        (id.saturating_add(1), u64::MAX),
        (0, id),
        // what the card does not have
        (next, u64::MAX),
        (0, 1),
        (id, id),
        (next.saturating_sub(1), next.saturating_add(9)),
    ];
    let w = &mut twin.state.weave;
    let cursor = &mut w.slots[0].cursor;
    *cursor = Slot::FREE.cursor;
    (cursor.from, cursor.to) = windows[d.index(windows.len() + 6) % windows.len()];
    cursor.limit = *d.pick(&[u64::MAX, u64::MAX, u64::MAX, 0, 1, 2]);
    cursor.desc = d.one_in(2);
    (w.slots[0].handle, w.opened) = (1, w.opened.max(1));
    if d.one_in(8) {
        w.units = w.res_max;
    }
    let cap = if d.one_in(3) { 4_000 } else { d.below(1_300) };
    let said = pages::page(twin, 1, cap);
    twin.state = state;
    said
}
