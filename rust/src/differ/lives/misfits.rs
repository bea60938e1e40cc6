//! Tables that do not fit their card: an entry is wrong, or the record that it leads to, or what the state says of both.
use super::*;
use crate::model::{Lent, State};

/// What may be wrong about a number.
type Fault = fn(&mut Dice, &mut Twin, u64);

const FAULTS: [Fault; 14] = [
    a_little_off,
    exchanged,
    outside,
    anywhere,
    anothers,
    moved,
    all_anywhere,
    turned,
    a_byte_of_it,
    a_byte_of_any,
    renumbered,
    used_shorter,
    other_next,
    cut_short,
];

// ---- its entry

fn entry(twin: &Twin, id: u64) -> u32 {
    twin.lent.index[id as usize - 1]
}

fn set(twin: &mut Twin, id: u64, at: u32) {
    let mut index = twin.lent.index.clone();
    index[id as usize - 1] = at;
    twin.lend_index(index);
}

/// A number that the card has.
fn some(d: &mut Dice, twin: &Twin) -> u64 {
    1 + d.below(twin.state.next - 1)
}

fn a_little_off(d: &mut Dice, twin: &mut Twin, id: u64) {
    let off = *d.pick(&[1, -1, 8, -8, 136, -136]);
    set(twin, id, entry(twin, id).wrapping_add_signed(off));
}

fn exchanged(d: &mut Dice, twin: &mut Twin, id: u64) {
    let (other, at) = (some(d, twin), entry(twin, id));
    set(twin, id, entry(twin, other));
    set(twin, other, at);
}

/// At the end of the used part and behind it.
fn outside(d: &mut Dice, twin: &mut Twin, id: u64) {
    let (used, card) = (twin.state.used as u32, twin.lent.card.len() as u32);
    set(twin, id, *d.pick(&[used - 8, used - 1, used, used + 1, card, u32::MAX]));
}

fn anywhere(d: &mut Dice, twin: &mut Twin, id: u64) {
    set(twin, id, d.word() as u32);
}

fn anothers(d: &mut Dice, twin: &mut Twin, id: u64) {
    let other = some(d, twin);
    set(twin, id, entry(twin, other));
}

/// Its record also stands elsewhere in the used part, at any address, and there the entry leads. It may lie over others, so that no walk comes to it.
fn moved(d: &mut Dice, twin: &mut Twin, id: u64) {
    let (_, event) = twin.state.by_entry(&twin.lent, id).expect("its entry is right");
    let record = event.stored();
    let at = d.below(twin.state.used - record.len() as u64 + 1);
    twin.poke(Buffer::Card, at, &record);
    set(twin, id, at as u32);
}

fn all_anywhere(d: &mut Dice, twin: &mut Twin, _: u64) {
    let entries = twin.lent.lengths().index;
    twin.lend_index(stock::table(d, entries));
}

/// Each number has the entry of one behind it.
fn turned(d: &mut Dice, twin: &mut Twin, _: u64) {
    let mut index = twin.lent.index.clone();
    index[..twin.state.next as usize - 1].rotate_left(1 + d.index(2));
    twin.lend_index(index);
}

// ---- its record

fn a_byte_of_it(d: &mut Dice, twin: &mut Twin, id: u64) {
    let at = entry(twin, id) as usize + d.index(136);
    damage::change(d, twin, Buffer::Card, at);
}

fn a_byte_of_any(d: &mut Dice, twin: &mut Twin, _: u64) {
    let at = d.index(twin.state.used as usize);
    damage::change(d, twin, Buffer::Card, at);
}

/// It says that it is another.
fn renumbered(d: &mut Dice, twin: &mut Twin, id: u64) {
    let other = d.edge(id).to_le_bytes();
    twin.poke(Buffer::Card, entry(twin, id) as u64 + 8, &other);
}

// ---- the state

/// The used part does not hold the record to which its entry leads.
fn used_shorter(d: &mut Dice, twin: &mut Twin, id: u64) {
    twin.state.used = entry(twin, id) as u64 + *d.pick(&[0, 1, 135]);
}

/// The card has more records than the state says, or fewer.
fn other_next(d: &mut Dice, twin: &mut Twin, id: u64) {
    twin.state.next = *d.pick(&[id, twin.state.next + 1, twin.state.next + 2, 1 << 63]);
}

/// The table ends before its entry, and the state says the same length.
fn cut_short(_: &mut Dice, twin: &mut Twin, id: u64) {
    let short = twin.lent.index[..id as usize - 1].to_vec();
    twin.state.lengths.index = short.len() as u64;
    twin.lend_index(short);
}

// ---- lives

/// An entry of a running box becomes wrong, and stays so.
pub fn some_entry(d: &mut Dice, twin: &mut Twin) {
    let mut index = twin.lent.index.clone();
    if index.is_empty() {
        return;
    }
    // one that there is a record for, mostly
    let records = twin.state.next.saturating_sub(1).clamp(1, index.len() as u64);
    let place = if d.one_in(4) { d.index(index.len()) } else { d.below(records) as usize };
    index[place] = if d.one_in(2) { d.word() as u32 } else { *d.pick(&index) };
    twin.lend_index(index);
}

fn put_back(twin: &mut Twin, state: State, lent: &Lent) {
    twin.state = state;
    twin.lend(Buffer::Card, lent.card.clone());
    twin.lend_index(lent.index.clone());
}

/// Each number wrong in each way: pages up to it, over it and beside it, both ways; look-ups; and that a commit does not mind.
pub fn misfits(d: &mut Dice, twin: &mut Twin) -> Agreed<()> {
    let mut h = Habits::new();
    h.topics.truncate(*d.pick(&[1, 1, 3]));
    let records = 3 + d.below(5);
    set_up(d, twin, &h, 1, records, 2_000)?;
    twin.call(Call::Begin { args: damage::weave_args(u64::MAX) })?;
    let call = asks::ingress(d, &h.topics, 20);
    twin.call(call)?;
    let (state, lent) = (twin.state, twin.lent.clone());
    for id in 1..=records {
        for fault in FAULTS {
            fault(d, twin, id);
            for _ in 0..4 {
                tables::look(d, twin, id)?;
            }
            for id in [id, 1 + d.below(records), records + 1] {
                twin.call(Call::LookUp { id })?;
            }
            if d.one_in(6) {
                damage::ended_and_back(twin)?;
            }
            put_back(twin, state, &lent);
        }
    }
    Ok(())
}
