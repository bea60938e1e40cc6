//! The table beside the card (02, A9): how long it has to be.
use super::Buffers;

/// No record is shorter: a header of 128 bytes, a topic of one and the zeros behind it. (P2 of document 01.)
const SHORTEST_RECORD: usize = 136;

impl Buffers {
    /// These three, and an index with an entry for each record that the card can hold. Who has a table of his own, or wants a shorter one,
    /// writes the struct down.
    #[must_use]
    pub fn new(staging: Vec<u8>, card: Vec<u8>, manifest: Vec<u8>) -> Buffers {
        let index = vec![0; card.len() / SHORTEST_RECORD];
        Buffers { staging, card, manifest, index }
    }
}

#[cfg(test)]
mod tests {
    use super::*;
    use crate::lent::{fate, place, Caller, Fate, Here, Place};
    use crate::raw::{Room, State};

    const MANIFEST: &[u8] = b"modules\t1\ngrant\t1\tin\tloop/take\n";

    /// What an entry holds that nobody has set.
    const JUNK: u32 = 0xABCD_EF01;

    /// A weave of so many takes, each a record of 152 bytes, and its outcome.
    fn record(archive: &Here, state: &mut State, b: &mut Buffers, takes: usize) -> Fate {
        *state = archive.begin(*state, b, &[0xFF; 128]).state;
        for _ in 0..takes {
            *state = archive.ingress(*state, b, b"loop/take", b"verse").state;
        }
        let r = archive.module_return(*state, b, 0);
        *state = r.state;
        fate(r.outcome)
    }

    /// A box with three takes, at 0, 152 and 304, and a table of so many entries.
    fn three(archive: &Here, entries: usize) -> (State, Buffers) {
        let index = vec![JUNK; entries];
        let mut b = Buffers { index, ..Buffers::new(vec![0; 65_536], vec![0; 1_000], MANIFEST.to_vec()) };
        let mut state = archive.mount(&mut b, 0).state;
        assert_eq!(record(archive, &mut state, &mut b, 3), Fate::Committed { events: 3, bytes: 456 });
        (state, b)
    }

    #[test]
    fn a_made_index_has_an_entry_for_each_record_that_fits() {
        for (card, entries) in [(0, 0), (135, 0), (136, 1), (1_000, 7), (65_536, 481), (16_777_216, 123_361)] {
            assert_eq!(Buffers::new(vec![], vec![0; card], vec![]).index.len(), entries, "a card of {card} bytes");
        }
    }

    #[test]
    fn a_commit_and_a_mount_set_the_entries_of_their_records_and_no_others() {
        let archive = Here::default();
        let (mut state, mut b) = three(&archive, 6);
        assert_eq!((state.index_len, &b.index[..]), (6, &[0, 152, 304, JUNK, JUNK, JUNK][..]));
        assert_eq!(record(&archive, &mut state, &mut b, 2), Fate::Committed { events: 2, bytes: 304 });
        assert_eq!(b.index, [0, 152, 304, 456, 608, JUNK]);
        b.index = vec![9; 8];
        assert_eq!(archive.mount(&mut b, 456).code, 0);
        assert_eq!(b.index, [0, 152, 304, 9, 9, 9, 9, 9]);
    }

    #[test]
    fn a_table_shorter_than_the_records_is_refused_at_mount_behind_all_else() {
        let archive = Here::default();
        let (_, good) = three(&archive, 3);
        for (entries, code) in [(0, -5), (2, -5), (3, 0), (4, 0)] {
            let mut b = Buffers { index: vec![7; entries], ..good.clone() };
            let m = archive.mount(&mut b, 456);
            assert_eq!((m.code, m.at, m.state.index_len), (code, 0, if code == 0 { entries as u64 } else { 0 }));
            assert_eq!(b.index == vec![7; entries], code != 0, "{entries} entries");
            // a record that is not sound comes first
            b.index = vec![7; entries];
            b.card[304 + 100] = 1;
            let m = archive.mount(&mut b, 456);
            assert_eq!((m.code, m.at, m.state), (-3, 304, State::NONE), "{entries} entries");
            assert_eq!(b.index, vec![7; entries]);
        }
    }

    #[test]
    fn a_table_without_room_discards_behind_all_else() {
        let archive = Here::default();
        let (state, good) = three(&archive, 4);
        for (takes, kept) in [(0, true), (1, true), (2, false), (3, false)] {
            let (mut state, mut b) = (state, good.clone());
            let events = takes as u64;
            let fate = if kept { Fate::Committed { events, bytes: 152 * events } } else { Fate::Discarded(-4) };
            assert_eq!(record(&archive, &mut state, &mut b, takes), fate, "{takes} takes");
            assert_eq!(b == good, !kept || takes == 0, "{takes} takes");
        }
        // a staged part that is not sound comes first
        let (mut b, begun) = (good.clone(), archive.begin(state, &mut good.clone(), &[0xFF; 128]).state);
        let r = archive.module_return(State { staged: 8, count: 2, ..begun }, &mut b, 0);
        assert_eq!(fate(r.outcome), Fate::Discarded(-3));
        // room for the card's own records is asked for where nothing is staged too: only a state made by hand has more of them
        for (next, fated) in [(5, Fate::Committed { events: 0, bytes: 0 }), (6, Fate::Discarded(-4))] {
            assert_eq!(fate(archive.module_return(State { next, ..begun }, &mut b, 0).outcome), fated);
        }
        assert_eq!(b, good);
    }

    /// Code and bytes of a next whose cursor has this window and limit.
    fn next(archive: &Here, state: State, b: &Buffers, down: bool, window: [u64; 3], cap: u64) -> (i64, u64) {
        let [from, to, limit] = window;
        let mut state = State { running: 1, turn: 1, res_max: u64::MAX, ..state };
        state.rooms[0] = Room { handle: 1, from, to, limit, desc: down as u64, ..Room::FREE };
        let mut memory = [0; 1_024];
        for (at, word) in [(8, 1), (16, 32), (24, cap)] {
            memory[at..at + 8].copy_from_slice(&word.to_le_bytes());
        }
        let before = memory;
        let a = archive.next(state, &mut memory, b, 8);
        if a.code != 0 {
            assert_eq!((a.state.rooms, memory), (state.rooms, before), "a refusal moves no cursor and writes no byte");
        }
        (a.code, a.value)
    }

    const ALL: [u64; 3] = [0, u64::MAX, u64::MAX];

    type Spoil = fn(&mut Buffers);

    /// Each leaves the numbers 1 and 3 as they are, and takes 2 away.
    const TWO_IS_WRONG: [(&str, Spoil); 9] = [
        ("an offset that is 8 too high", |b| b.index[1] += 8),
        ("an offset that is one too low", |b| b.index[1] -= 1),
        ("the offset of number 1", |b| b.index[1] = 0),
        ("the end of the used part", |b| b.index[1] = 456),
        ("the card's end", |b| b.index[1] = 1_000),
        ("the greatest offset", |b| b.index[1] = u32::MAX),
        ("a reserved byte of the record", |b| b.card[152 + 100] = 1),
        ("the record's number", |b| b.card[152 + 8] = 9),
        ("the record's length", |b| b.card[152] += 8),
    ];

    /// "tl_next and look-up now check only the records that they look at (from the cursor's place through the record that ends the page)"
    #[test]
    fn a_wrong_number_counts_where_it_is_looked_at() {
        let archive = Here::default();
        let (state, good) = three(&archive, 3);
        for (name, spoil) in TWO_IS_WRONG {
            let mut b = good.clone();
            spoil(&mut b);
            let up = |window, cap| next(&archive, state, &b, false, window, cap);
            let down = |window, cap| next(&archive, state, &b, true, window, cap);
            for next in [&up as &dyn Fn([u64; 3], u64) -> (i64, u64), &down] {
                // the record that ends the page is looked at, and no later one
                assert_eq!((next(ALL, 151), next(ALL, 152), next(ALL, 900)), ((-4, 0), (-3, 0), (-3, 0)), "{name}");
                assert_eq!((next([0, 9, 1], 900), next([0, 9, 2], 900)), ((0, 152), (-3, 0)), "{name}");
                // nothing is looked at
                assert_eq!(
                    (next([0, 9, 0], 900), next([2, 2, 9], 900), next([4, 9, 9], 900)),
                    ((0, 0), (0, 0), (0, 0))
                );
                // beside it
                assert_eq!((next([0, 2, 9], 900), next([3, 9, 9], 900)), ((0, 152), (0, 152)), "{name}");
                assert_eq!(next([2, 3, 9], 0), (-3, 0), "{name}: -3 before -4");
            }
            assert_eq!(place(archive.look_up(state, &b, 2)), Place::Nowhere, "{name}");
            assert_eq!(place(archive.look_up(state, &b, 1)), Place::Card { at: 0, len: 152 }, "{name}");
            assert_eq!(place(archive.look_up(state, &b, 3)), Place::Card { at: 304, len: 152 }, "{name}");
        }
    }

    #[test]
    fn exchanged_entries_are_both_wrong() {
        let archive = Here::default();
        let (state, mut b) = three(&archive, 3);
        b.index.swap(0, 2);
        for down in [false, true] {
            assert_eq!(next(&archive, state, &b, down, ALL, 900), (-3, 0));
            assert_eq!(next(&archive, state, &b, down, [2, 3, 9], 900), (0, 152));
        }
        assert_eq!([1, 2, 3].map(|id| archive.look_up(state, &b, id).len), [0, 152, 0]);
    }

    /// "whatever stood before it": two records fit and are sound, and what comes behind them is looked at to see whether it fits.
    #[test]
    fn the_record_behind_a_full_page_is_looked_at() {
        let archive = Here::default();
        let (state, mut b) = three(&archive, 3);
        b.card[304 + 100] = 1;
        assert_eq!(next(&archive, state, &b, false, ALL, 303), (0, 152));
        assert_eq!(next(&archive, state, &b, false, ALL, 304), (-3, 0));
        assert_eq!(next(&archive, state, &b, false, [0, 9, 2], 304), (0, 304));
        assert_eq!(next(&archive, state, &b, false, [0, 3, 9], 304), (0, 304));
        // no unit is left: -3 all the same
        let poor = State { units: u64::MAX, ..state };
        assert_eq!(next(&archive, poor, &b, false, ALL, 304), (-3, 0));
        assert_eq!(next(&archive, poor, &b, false, ALL, 303), (-6, 0));
    }

    /// States that have more records than the table, and tables that have more entries than there are records.
    #[test]
    fn numbers_that_the_table_does_not_have() {
        let archive = Here::default();
        let (state, mut b) = three(&archive, 3);
        for next_number in [5, 1 << 32, 1 << 63] {
            let more = State { next: next_number, ..state };
            assert_eq!(next(&archive, more, &b, false, ALL, 900), (-3, 0));
            assert_eq!(next(&archive, more, &b, false, ALL, 455), (0, 304));
            assert_eq!(next(&archive, more, &b, true, ALL, 900), (-3, 0));
            assert_eq!(next(&archive, more, &b, true, [0, 4, 9], 900), (0, 456));
            assert_eq!([3, 4, next_number - 1].map(|id| archive.look_up(more, &b, id).len), [152, 0, 0]);
        }
        // the card has them, and the state does not
        let fewer = State { next: 3, ..state };
        assert_eq!([false, true].map(|down| next(&archive, fewer, &b, down, ALL, 900)), [(0, 304); 2]);
        b.index.truncate(1);
        let short = State { index_len: 1, ..state };
        assert_eq!(next(&archive, short, &b, false, [0, 2, 9], 900), (0, 152));
        assert_eq!(next(&archive, short, &b, false, [0, 3, 9], 900), (-3, 0));
        assert_eq!([1, 2].map(|id| archive.look_up(short, &b, id).len), [152, 0]);
    }

    /// Nothing is asked of an offset but that such a record lies there: 1 is moved to an odd place, over 2, to which no walk comes any more.
    #[test]
    fn a_record_may_lie_wherever_its_entry_leads() {
        let archive = Here::default();
        let (state, mut b) = three(&archive, 3);
        b.card.copy_within(0..152, 101);
        b.index[0] = 101;
        assert_eq!(place(archive.look_up(state, &b, 1)), Place::Card { at: 101, len: 152 });
        assert_eq!(next(&archive, state, &b, false, [0, 2, 9], 900), (0, 152));
        assert_eq!(archive.look_up(state, &b, 2).len, 0);
        // it has to lie whole in the used part
        let short = State { used: 252, ..state };
        assert_eq!(place(archive.look_up(short, &b, 1)), Place::Nowhere);
        assert_eq!(place(archive.look_up(State { used: 253, ..state }, &b, 1)), Place::Card { at: 101, len: 152 });
    }

    /// Check 1, so before -2; and only of the four calls that are lent it.
    #[test]
    fn another_length_than_at_mount_is_refused_where_it_is_lent() {
        let archive = Here::default();
        let (state, good) = three(&archive, 3);
        for entries in [0, 2, 4] {
            let mut b = Buffers { index: vec![0; entries], ..good.clone() };
            let a = archive.next(state, &mut [], &b, 8);
            assert_eq!((a.code, a.field, a.state), (-5, 254, state));
            assert_eq!(fate(archive.module_return(state, &mut b, 0).outcome), Fate::Refused(-5));
            assert_eq!(place(archive.look_up(state, &b, 1)), Place::Nowhere);
            let begun = archive.begin(state, &mut b, &[0xFF; 128]);
            assert_eq!(begun.code, 0);
            assert_eq!(archive.ingress(begun.state, &mut b, b"loop/take", b"").code, 0);
            assert_eq!(fate(archive.module_return(begun.state, &mut b, 0).outcome), Fate::Refused(-5));
        }
    }
}
