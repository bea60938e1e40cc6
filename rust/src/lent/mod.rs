//! The archive's functions over slices. They are safe for every state and all bytes, as none of them requires anything. But who calls
//! them holds the state himself: he can use one twice, or lend other buffers, and then the promises say nothing. So only the owner
//! ([`crate::host`]) and the differential run see them.
mod field;
mod index;
#[cfg(linked)]
mod linked;
mod piped;

use crate::raw::{self, State};
pub use field::{Field, ModuleCall, Refusal};
#[cfg(linked)]
pub use linked::Linked;
pub use piped::Piped;

/// The archive as this machine has it: linked on x86-64, elsewhere in a program of its own.
#[cfg(linked)]
pub type Here = Linked;
#[cfg(not(linked))]
pub type Here = Piped;

/// What the box lends: the first three to every operation, the index to mount, next, return and look-up. [`Buffers::new`] makes an index that
/// is always long enough.
#[derive(Clone, Debug, PartialEq, Eq, Default)]
pub struct Buffers {
    pub staging: Vec<u8>,
    pub card: Vec<u8>,
    pub manifest: Vec<u8>,
    /// entry i is the card's offset of the record with the number 1 + i; mount fills it, whatever it held before
    pub index: Vec<u32>,
}

/// What a return leads to.
#[must_use = "only `Committed` says that the takes are on the card"]
#[derive(Clone, Copy, Debug, PartialEq, Eq)]
pub enum Fate {
    Refused(i64),
    Discarded(i64),
    Running,
    Committed { events: u64, bytes: u64 },
}

/// An outcome by its kind, as include/loafheron.h numbers them. A kind that has no number there is nobody's word for anything.
pub fn fate(o: raw::Outcome) -> Fate {
    match o.kind {
        0 => Fate::Refused(refusal(o.code)),
        1 => Fate::Discarded(refusal(o.code)),
        2 => Fate::Running,
        3 => Fate::Committed { events: o.events, bytes: o.bytes },
        kind => panic!("the archive answered an outcome of kind {kind}, which is none"),
    }
}

/// Document 01's code of a refusal or a discard.
pub fn refusal(code: i64) -> i64 {
    match code {
        -7..=-1 => code,
        _ => panic!("the archive answered the code {code}, which is none"),
    }
}

/// What begin and ingress answer: a number that is 0 or more, or document 01's code. They are no module calls and name no field.
pub fn answer(a: &raw::Answer) -> Result<u64, i64> {
    if a.field != 0 {
        panic!("the archive answered the field {} beside the code {}, which has none", a.field, a.code);
    }
    match a.code {
        0 => Ok(a.value),
        code => Err(refusal(code)),
    }
}

/// What a module call answers: a number that is 0 or more, or why it was refused.
pub fn module_answer(call: ModuleCall, a: &raw::Answer) -> Result<u64, Refusal> {
    match a.code {
        -5 => Err(Refusal::Bad(call.field(a.field))),
        _ => answer(a).map_err(Refusal::Code),
    }
}

/// Which buffer a looked-up record lies in, from where, how many bytes.
#[derive(Clone, Copy, Debug, PartialEq, Eq)]
pub enum Place {
    Nowhere,
    Card { at: u64, len: u64 },
    Staging { at: u64, len: u64 },
}

/// A place by its buffer, as include/loafheron.h numbers them.
pub fn place(p: raw::Place) -> Place {
    match p.buffer {
        0 => Place::Nowhere,
        1 => Place::Card { at: p.at, len: p.len },
        2 => Place::Staging { at: p.at, len: p.len },
        buffer => panic!("the archive answered a place in buffer {buffer}, which is none"),
    }
}

/// Whoever makes the calls of the archive: each function of include/loafheron.h, with a slice for a pointer and a length.
pub trait Caller {
    fn state_size(&self) -> u64;
    fn mount(&self, b: &mut Buffers, used: u64) -> raw::Mounted;
    fn begin(&self, state: State, b: &mut Buffers, args: &[u8]) -> raw::Answer;
    fn ingress(&self, state: State, b: &mut Buffers, topic: &[u8], payload: &[u8]) -> raw::Answer;
    fn write(&self, state: State, memory: &[u8], b: &mut Buffers, at: u64) -> raw::Answer;
    fn read(&self, state: State, memory: &mut [u8], b: &Buffers, at: u64) -> raw::Answer;
    fn open(&self, state: State, memory: &[u8], b: &Buffers, at: u64) -> raw::Answer;
    fn next(&self, state: State, memory: &mut [u8], b: &Buffers, at: u64) -> raw::Answer;
    fn close(&self, state: State, memory: &[u8], b: &Buffers, at: u64) -> raw::Answer;
    fn module_return(&self, state: State, b: &mut Buffers, code: i64) -> raw::Returned;
    fn look_up(&self, state: State, b: &Buffers, id: u64) -> raw::Place;
}

#[cfg(test)]
mod tests {
    use super::*;
    use std::panic::catch_unwind;

    const MANIFEST: &[u8] = b"modules\t1\ngrant\t1\tout\tloop/take\ngrant\t1\tin\tloop/take\n";

    fn buffers() -> Buffers {
        Buffers::new(vec![0; 65_536], vec![0; 65_536], MANIFEST.to_vec())
    }

    /// What a panic said.
    fn said<T>(call: impl FnOnce() -> T + std::panic::UnwindSafe) -> String {
        let panic = catch_unwind(call).err().expect("it was taken");
        panic.downcast_ref::<String>().unwrap().clone()
    }

    fn outcome(kind: u64, code: i64) -> raw::Outcome {
        raw::Outcome { kind, code, events: 3, bytes: 456 }
    }

    #[test]
    fn each_kind_of_outcome_is_its_own() {
        assert_eq!(fate(outcome(0, -5)), Fate::Refused(-5));
        assert_eq!(fate(outcome(1, -6)), Fate::Discarded(-6));
        assert_eq!(fate(outcome(2, 0)), Fate::Running);
        assert_eq!(fate(outcome(3, 0)), Fate::Committed { events: 3, bytes: 456 });
    }

    #[test]
    fn an_outcome_of_another_kind_is_a_panic_that_says_which() {
        for kind in [4, 5, 255, 256, 259, 1 << 32, (1 << 32) + 3, u64::MAX] {
            let why = said(move || fate(outcome(kind, 0)));
            assert!(why.contains(&format!("kind {kind},")), "{why}");
        }
    }

    #[test]
    fn each_code_is_its_own_and_any_other_is_a_panic_that_says_which() {
        let answer_of = |code| answer(&answered(code, 0));
        assert_eq!(answer_of(0), Ok(9));
        for code in -7..=-1 {
            assert_eq!(answer_of(code), Err(code));
        }
        for code in [1, 2, -8, i64::MAX, i64::MIN] {
            for why in
                [said(move || answer_of(code)), said(move || module_answer(ModuleCall::Read, &answered(code, 0)))]
            {
                assert!(why.contains(&format!("code {code},")), "{why}");
            }
        }
        // a refusal or a discard has a code below 0
        for kind in [0, 1] {
            assert!(said(move || fate(outcome(kind, 0))).contains("code 0,"));
        }
    }

    fn answered(code: i64, field: u64) -> raw::Answer {
        raw::Answer { code, value: 9, field, state: State::NONE }
    }

    /// 02, A5, call by call: "a topic counts as offset 0, a span as its pointer", 255 and 254.
    #[test]
    fn each_field_is_its_own_and_any_other_is_a_panic_that_says_which() {
        use Field::*;
        let named = [
            (ModuleCall::Write, &[(254, Before), (255, Record), (0, Topic), (32, Flags), (16, Data), (24, Len)][..]),
            (ModuleCall::Read, &[(254, Before), (255, Record), (0, Topic), (24, OutPtr)]),
            (ModuleCall::Open, &[(254, Before), (255, Record), (0, Topic), (40, Desc)]),
            (ModuleCall::Next, &[(254, Before), (255, Record), (8, OutPtr)]),
            (ModuleCall::Close, &[(254, Before), (255, Record)]),
        ];
        for (call, fields) in named {
            for number in (0..=300).chain([1 << 32, (1 << 32) + 16, u64::MAX]) {
                match fields.iter().find(|(n, _)| *n == number) {
                    Some((_, field)) => {
                        assert_eq!(module_answer(call, &answered(-5, number)), Err(Refusal::Bad(*field)));
                        assert_eq!(field.number(call), Some(number));
                    }
                    None => {
                        let why = said(move || module_answer(call, &answered(-5, number)));
                        assert!(why.contains(&format!("field {number} of a {call},")), "{why}");
                    }
                }
            }
        }
    }

    /// What is accepted, what is refused with another code, and what is no module call.
    #[test]
    fn a_field_where_there_is_none_is_a_panic_that_says_which() {
        for call in ModuleCall::ALL {
            assert_eq!(module_answer(call, &answered(0, 0)), Ok(9));
            for code in [-7, -6, -4, -3, -2, -1] {
                assert_eq!(module_answer(call, &answered(code, 0)), Err(Refusal::Code(code)));
            }
            for code in [-7, -6, -4, -3, -2, -1, 0] {
                let why = said(move || module_answer(call, &answered(code, 255)));
                assert!(why.contains(&format!("field 255 beside the code {code},")), "{why}");
            }
        }
        for code in -7..=0 {
            let why = said(move || answer(&answered(code, 16)));
            assert!(why.contains(&format!("field 16 beside the code {code},")), "{why}");
        }
    }

    #[test]
    fn a_refusal_says_its_code_and_its_field() {
        let (bad, budget) = (Refusal::Bad(Field::OutPtr), Refusal::Code(-6));
        assert_eq!((bad.code(), bad.field()), (-5, Some(Field::OutPtr)));
        assert_eq!((budget.code(), budget.field()), (-6, None));
        assert_eq!((bad.to_string(), budget.to_string()), ("-5 (out_ptr)".into(), "-6".into()));
        assert_eq!((Field::OutPtr.number(ModuleCall::Read), Field::OutPtr.number(ModuleCall::Close)), (Some(24), None));
    }

    #[test]
    fn each_place_is_its_own_and_any_other_is_a_panic_that_says_which() {
        let place_in = |buffer| place(raw::Place { buffer, at: 8, len: 152 });
        assert_eq!(place_in(0), Place::Nowhere);
        assert_eq!(place_in(1), Place::Card { at: 8, len: 152 });
        assert_eq!(place_in(2), Place::Staging { at: 8, len: 152 });
        for buffer in [3, 4, 256, u64::MAX] {
            let why = said(move || place_in(buffer));
            assert!(why.contains(&format!("buffer {buffer},")), "{why}");
        }
    }

    fn weave_args() -> [u8; 128] {
        let mut args = [0; 128];
        args[24] = 9;
        args
    }

    /// Lengths that are not those at mount, a card in pieces, a manifest gone bad.
    #[test]
    fn wrong_buffers_get_their_codes() {
        let archive = Here::default();
        let mut b = buffers();
        let state = archive.mount(&mut b, 0).state;
        b.card.push(0);
        assert_eq!(archive.begin(state, &mut b, &weave_args()).code, -5);
        b.card.pop();
        b.manifest[0] = b'M';
        assert_eq!(archive.begin(state, &mut b, &weave_args()).code, -5);
        assert_eq!(archive.mount(&mut b, 0).code, -5);
        b.manifest[0] = b'm';
        let refused = archive.mount(&mut b, 65_536);
        assert_eq!((refused.code, refused.at, refused.state), (-3, 0, State::NONE));
        assert_eq!(archive.mount(&mut b, 65_537).code, -5);
        assert_eq!(archive.begin(state, &mut b, &weave_args()).code, 0);
    }

    /// A flag that is neither 0 nor 1 says yes, a mark that is no reason says panic; the state that comes back has 1 and -1.
    #[test]
    fn numbers_that_no_state_has() {
        let archive = Here::default();
        let mut b = buffers();
        let begun = archive.begin(archive.mount(&mut b, 0).state, &mut b, &weave_args()).state;
        for spoiled in [1, 2, -1, -2, -4, -7, -8, 250, i64::MIN, i64::MAX] {
            let a = archive.read(State { running: 77, spoiled, ..begun }, &mut [], &b, 8);
            assert_eq!((a.code, a.state.running, a.state.spoiled), (-1, 1, -1), "a mark of {spoiled}");
        }
        let a = archive.read(State { spoiled: -6, ..begun }, &mut [], &b, 8);
        assert_eq!((a.code, a.state.spoiled), (-6, -6));
        let a = archive.read(begun, &mut [], &b, 8);
        assert_eq!((a.code, a.field, a.state.spoiled), (-5, 255, 0));
        let a = archive.ingress(State { late: u64::MAX, ..begun }, &mut b, b"a", b"");
        assert_eq!((a.code, a.state.late), (-2, 1));
    }

    /// A read of what is staged with a topic of nine bytes: its record lies at 8, the topic at 64, and from 80 on there is room for both takes.
    fn read(archive: &Here, state: State, memory: &mut [u8; 512], b: &Buffers, topic: &[u8; 9]) -> raw::Answer {
        memory[64..73].copy_from_slice(topic);
        for (at, word) in [(8, 64), (16, 9), (24, 0), (32, 80), (40, 304_u64)] {
            memory[at..at + 8].copy_from_slice(&word.to_le_bytes());
        }
        archive.read(state, memory, b, 8)
    }

    /// A staged record whose topic gets byte 127 by hand stays sound: no read has it, look-up shows it, the last return commits it.
    #[test]
    fn a_staged_record_may_hold_byte_127() {
        let archive = Here::default();
        let mut b = buffers();
        // units for a read of both takes, 1 + 304 / 8
        let mut args = weave_args();
        args[24] = 39;
        let begun = archive.begin(archive.mount(&mut b, 0).state, &mut b, &args).state;
        let first = archive.ingress(begun, &mut b, b"loop/take", b"verse").state;
        let staged = archive.ingress(first, &mut b, b"loop/take", b"chorus").state;
        b.staging[128 + 8] = 127;
        let mut memory = [0; 512];
        let a = read(&archive, staged, &mut memory, &b, b"loop/take");
        assert_eq!((a.code, a.value), (0, 152));
        assert_eq!((memory[80 + 8], &memory[80 + 144..80 + 150]), (2, &b"chorus"[..]));
        let refused = read(&archive, a.state, &mut memory, &b, b"loop/tak\x7f");
        assert_eq!((refused.code, refused.field, refused.state), (-5, 0, a.state));
        assert_eq!(place(archive.look_up(a.state, &b, 1)), Place::Staging { at: 0, len: 152 });
        assert_eq!(place(archive.look_up(a.state, &b, 2)), Place::Staging { at: 152, len: 152 });
        let r = archive.module_return(a.state, &mut b, 0);
        assert_eq!(fate(r.outcome), Fate::Committed { events: 2, bytes: 304 });
        assert_eq!(&b.card[128..137], b"loop/tak\x7f");
        assert_eq!(&b.card[152 + 128..152 + 137], b"loop/take");
        assert_eq!(archive.mount(&mut b, 304).code, 0);
    }

    /// A raw write of "verse" to loop/take, a record of 152 bytes.
    fn write(archive: &Here, state: State, b: &mut Buffers) -> raw::Answer {
        let mut memory = [0; 128];
        memory[64..73].copy_from_slice(b"loop/take");
        memory[80..85].copy_from_slice(b"verse");
        for (at, word) in [(8, 64), (16, 9), (24, 80), (32, 5), (40, 1_u64)] {
            memory[at..at + 8].copy_from_slice(&word.to_le_bytes());
        }
        archive.write(state, &memory, b, 8)
    }

    /// A weave with so many units under a manifest with a charge line, and where its number stands.
    fn charging(archive: &Here, units: u8) -> (Buffers, State, usize) {
        let mut b = buffers();
        b.manifest.splice(10..10, *b"charge\t1\n");
        let mut args = weave_args();
        args[24] = units;
        let state = archive.begin(archive.mount(&mut b, 0).state, &mut b, &args).state;
        (b, state, 17)
    }

    /// The rule is that of the manifest as it is lent. A write costs 20 units under 1, 7 under 2; 6 are left over.
    #[test]
    fn a_charge_rule_changes_under_way() {
        let archive = Here::default();
        let (mut b, mut state, number) = charging(&archive, 20 + 7 + 20 + 6);
        for (rule, units) in [(b'1', 20), (b'2', 27), (b'1', 47)] {
            b.manifest[number] = rule;
            let a = write(&archive, state, &mut b);
            assert_eq!((a.code, a.state.units), (0, units));
            state = a.state;
        }
        for rule in [b'1', b'2'] {
            b.manifest[number] = rule;
            let a = write(&archive, state, &mut b);
            assert_eq!((a.code, a.state.units, a.state.spoiled), (-6, 47, -6));
        }
    }

    /// Where the number is no rule every call is refused, the return too; where it is one again the box goes on.
    #[test]
    fn a_charge_that_is_no_rule_is_refused_under_way() {
        let archive = Here::default();
        let (mut b, state, number) = charging(&archive, 20);
        for other in [b'0', b'3', b' ', b'\n'] {
            b.manifest[number] = other;
            let (a, r) = (write(&archive, state, &mut b), archive.module_return(state, &mut b, 0));
            assert_eq!((a.code, a.field, a.state), (-5, 254, state), "{other}");
            assert_eq!((r.outcome.code, r.state), (-5, state), "{other}");
        }
        b.manifest[number] = b'1';
        let a = write(&archive, state, &mut b);
        assert_eq!(fate(archive.module_return(a.state, &mut b, 0).outcome), Fate::Committed { events: 1, bytes: 152 });
    }

    #[test]
    fn the_archive_has_the_state_of_the_header() {
        assert_eq!(Here::default().state_size(), size_of::<State>() as u64);
    }
}
