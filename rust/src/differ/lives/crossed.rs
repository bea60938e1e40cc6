//! States of C's own making: each field of the struct gets numbers that no host would hand out.
use super::*;
use crate::differ::view;
use crate::raw;

/// Numbers for a flag: "A flag that is not 0 says yes".
const FLAGS: [u64; 9] = [0, 1, 2, 77, 255, 256, 1 << 32, 1 << 63, u64::MAX];

/// Numbers for a mark: the codes and their neighbours, and numbers that look like one of them in fewer bits.
const MARKS: [i64; 19] =
    [0, -6, -1, 1, 2, 3, -2, -3, -4, -5, -7, -8, 6, 250, 0xFFFF_FFFA, 1 << 32, -6 - (1 << 32), i64::MIN, i64::MAX];

/// A field of the state: how to get at it, and what to put there.
type Field = (fn(&mut raw::State) -> &mut u64, Numbers);

#[derive(Clone, Copy)]
enum Numbers {
    Flag,
    /// at the edge of what stands there
    Near,
    /// at the edge of this number
    Of(u64),
}

/// All but the mark, which has its own numbers. (The room is the first; `try_it` exchanges it with another.)
const FIELDS: [Field; 22] = [
    (|s| &mut s.staging_len, Numbers::Near),
    (|s| &mut s.card_len, Numbers::Near),
    (|s| &mut s.manifest_len, Numbers::Near),
    (|s| &mut s.index_len, Numbers::Near),
    (|s| &mut s.used, Numbers::Near),
    (|s| &mut s.next, Numbers::Near),
    (|s| &mut s.faulted, Numbers::Flag),
    (|s| &mut s.running, Numbers::Flag),
    (|s| &mut s.turn, Numbers::Of(1)),
    (|s| &mut s.late, Numbers::Flag),
    (|s| &mut s.staged, Numbers::Near),
    (|s| &mut s.count, Numbers::Near),
    (|s| &mut s.units, Numbers::Near),
    (|s| &mut s.res_max, Numbers::Near),
    (|s| &mut s.time, Numbers::Near),
    (|s| &mut s.opened, Numbers::Of(65_535)),
    (|s| &mut s.rooms[0].handle, Numbers::Of(2)),
    (|s| &mut s.rooms[0].from, Numbers::Near),
    (|s| &mut s.rooms[0].to, Numbers::Near),
    (|s| &mut s.rooms[0].limit, Numbers::Of(2)),
    (|s| &mut s.rooms[0].desc, Numbers::Flag),
    (|s| &mut s.rooms[0].size, Numbers::Of(64)),
];

/// One or two calls from this state; most often the box then goes on from where it was.
fn try_it(d: &mut Dice, twin: &mut Twin, h: &Habits, mut state: raw::State) -> Agreed<()> {
    let sound = twin.state;
    state.rooms.swap(0, d.index(4));
    for _ in 0..1 + d.below(2) {
        // what is asked goes by what the state says
        twin.state = view::said(&state);
        let call = if d.one_in(12) { asks::begin(d, 500) } else { any_call(d, twin, h) };
        twin.call_from(state, call)?;
    }
    if !d.one_in(6) {
        twin.state = sound;
    }
    Ok(())
}

/// A box somewhere in its life, as C has it. In two of three there is a cursor in the first room.
fn somewhere(d: &mut Dice, twin: &mut Twin, h: &Habits) -> Agreed<raw::State> {
    for _ in 0..d.below(4) {
        step(d, twin, h)?;
    }
    let mut state = view::state(&twin.state);
    if d.below(3) > 0 {
        state.rooms[0] = raw::Room { handle: 1 + d.below(3), to: u64::MAX, limit: 9, ..raw::Room::FREE };
        state.rooms[d.index(4)].filter = d.bytes(64).try_into().unwrap();
    }
    Ok(state)
}

/// Every flag with every number for a flag, every mark, every other field with numbers at its edges.
pub fn states(d: &mut Dice, twin: &mut Twin) -> Agreed<()> {
    let h = Habits::new();
    let modules = 1 + d.below(3);
    set_up(d, twin, &h, modules, 4, 3_000)?;
    for (field, numbers) in FIELDS {
        for flag in FLAGS {
            let mut state = somewhere(d, twin, &h)?;
            let place = field(&mut state);
            *place = match numbers {
                Numbers::Flag => flag,
                Numbers::Near => d.edge(*place),
                Numbers::Of(n) => d.edge(n),
            };
            try_it(d, twin, &h, state)?;
        }
    }
    // twice, as a look-up hands no state back
    for spoiled in MARKS.into_iter().chain(MARKS) {
        let mut state = somewhere(d, twin, &h)?;
        (state.running, state.spoiled) = (1 + d.below(2), spoiled);
        try_it(d, twin, &h, state)?;
    }
    Ok(())
}
