//! Why a module call is refused: its code and, with -5, which field of its argument record it is for (02, A5).
use std::fmt;

/// The calls of a module. Each has an argument record of its own, so a number that the archive answers names a field only together with
/// its call.
#[derive(Clone, Copy, Debug, PartialEq, Eq)]
pub enum ModuleCall {
    Write,
    Read,
    Open,
    Next,
    Close,
}

/// What a -5 is for.
#[derive(Clone, Copy, Debug, PartialEq, Eq)]
pub enum Field {
    /// no argument: memory too large, other lent lengths than at mount, a bad manifest, a bad state
    Before,
    /// the address of the argument record: no multiple of 8, or its bytes are not inside the memory
    Record,
    /// the topic, or the filter of an open: its span, its length or its bytes
    Topic,
    /// write: none of the four good flags; looked at before data and len
    Flags,
    /// write: (data, len) not inside the memory, so a len that is too large is here too; a value's address no multiple of 8; its string's or
    /// byte array's span
    Data,
    /// write, of a value: the span is inside the memory, but len is not 32
    Len,
    /// read and next: no multiple of 8, or the out buffer is not inside the memory
    OutPtr,
    /// open: above 1
    Desc,
}

impl ModuleCall {
    pub const ALL: [ModuleCall; 5] =
        [ModuleCall::Write, ModuleCall::Read, ModuleCall::Open, ModuleCall::Next, ModuleCall::Close];

    /// What a -5 of this call may be for, in the order of the checks, each with its number of include/loafheron.h.
    #[must_use]
    pub const fn fields(self) -> &'static [(Field, u64)] {
        use Field::*;
        match self {
            ModuleCall::Write => &[(Before, 254), (Record, 255), (Topic, 0), (Flags, 32), (Data, 16), (Len, 24)],
            ModuleCall::Read => &[(Before, 254), (Record, 255), (Topic, 0), (OutPtr, 24)],
            ModuleCall::Open => &[(Before, 254), (Record, 255), (Topic, 0), (Desc, 40)],
            ModuleCall::Next => &[(Before, 254), (Record, 255), (OutPtr, 8)],
            ModuleCall::Close => &[(Before, 254), (Record, 255)],
        }
    }

    /// The field that has this number in this call. Any other number is a fault of the archive: a panic says which.
    #[must_use]
    pub fn field(self, number: u64) -> Field {
        match self.fields().iter().find(|(_, n)| *n == number) {
            Some((field, _)) => *field,
            None => panic!("the archive answered the field {number} of a {self}, which is none"),
        }
    }
}

impl Field {
    /// Its number in this call: an offset in the argument record, but for 254 and 255. Nothing where the call has no such field.
    #[must_use]
    pub fn number(self, call: ModuleCall) -> Option<u64> {
        call.fields().iter().find(|(field, _)| *field == self).map(|(_, number)| *number)
    }
}

impl fmt::Display for ModuleCall {
    fn fmt(&self, f: &mut fmt::Formatter) -> fmt::Result {
        f.write_str(match self {
            ModuleCall::Write => "write",
            ModuleCall::Read => "read",
            ModuleCall::Open => "tl_open",
            ModuleCall::Next => "tl_next",
            ModuleCall::Close => "tl_close",
        })
    }
}

/// As document 000 names it, and where it is none, in words.
impl fmt::Display for Field {
    fn fmt(&self, f: &mut fmt::Formatter) -> fmt::Result {
        f.write_str(match self {
            Field::Before => "not the arguments",
            Field::Record => "the arguments' address",
            Field::Topic => "topic",
            Field::Flags => "flags",
            Field::Data => "data",
            Field::Len => "len",
            Field::OutPtr => "out_ptr",
            Field::Desc => "desc",
        })
    }
}

/// Why a module call was refused. Only a -5 has a field, and each -5 has one.
#[derive(Clone, Copy, Debug, PartialEq, Eq)]
pub enum Refusal {
    /// -5
    Bad(Field),
    /// document 01's code, any but -5
    Code(i64),
}

impl Refusal {
    /// Document 01's code: what the module is answered.
    #[must_use]
    pub fn code(self) -> i64 {
        match self {
            Refusal::Bad(_) => -5,
            Refusal::Code(code) => code,
        }
    }

    #[must_use]
    pub fn field(self) -> Option<Field> {
        match self {
            Refusal::Bad(field) => Some(field),
            Refusal::Code(_) => None,
        }
    }
}

/// `-5 (out_ptr)`, or the code alone.
impl fmt::Display for Refusal {
    fn fmt(&self, f: &mut fmt::Formatter) -> fmt::Result {
        match self {
            Refusal::Bad(field) => write!(f, "-5 ({field})"),
            Refusal::Code(code) => write!(f, "{code}"),
        }
    }
}

impl std::error::Error for Refusal {}

#[cfg(test)]
mod tests {
    use super::ModuleCall::*;
    use super::*;
    use crate::lent::{Buffers, Caller, Here};
    use crate::raw::{self, State};

    /// Each call with one of its fields bad: the address of its record, and the record's words. The topic lies at 64, the payload or value at 128.
    const BAD: [(ModuleCall, Field, u64, &[u64]); 15] = [
        (Write, Field::Record, 12, &[64, 9, 128, 5, 1]),
        (Write, Field::Topic, 8, &[64, 0, 128, 5, 1]),
        (Write, Field::Flags, 8, &[64, 9, 128, 5, 0]),
        (Write, Field::Data, 8, &[64, 9, 0, 5, 1]),
        (Write, Field::Data, 8, &[64, 9, 132, 32, 2]),
        (Write, Field::Len, 8, &[64, 9, 128, 31, 2]),
        (Read, Field::Record, 12, &[64, 9, 0, 128, 64]),
        (Read, Field::Topic, 8, &[64, 0, 0, 128, 64]),
        (Read, Field::OutPtr, 8, &[64, 9, 0, 132, 64]),
        (Open, Field::Record, 12, &[64, 9, 0, 9, 9, 0]),
        (Open, Field::Topic, 8, &[64, 65, 0, 9, 9, 0]),
        (Open, Field::Desc, 8, &[64, 9, 0, 9, 9, 2]),
        (Next, Field::Record, 12, &[1, 128, 64]),
        (Next, Field::OutPtr, 8, &[1, 132, 64]),
        (Close, Field::Record, 12, &[1]),
    ];

    type Spoil = fn(&mut Buffers, &mut State);

    /// What check 1 refuses, of what is lent and of the state.
    const BEFORE: [(&str, Spoil); 11] = [
        ("a longer staging", |b, _| b.staging.push(0)),
        ("a shorter staging", |b, _| b.staging.truncate(65_535)),
        ("a longer card", |b, _| b.card.push(0)),
        ("a shorter card", |b, _| b.card.truncate(8)),
        ("a longer manifest", |b, _| b.manifest.extend(b"grant\t1\tin\tloop/take\n")),
        ("a bad manifest", |b, _| b.manifest[0] = b'M'),
        ("a used length above the card's", |_, s| s.used = 65_537),
        ("more staged than staging has", |_, s| s.staged = 65_537),
        ("a next number of 0", |_, s| s.next = 0),
        ("numbers above 2^63", |_, s| s.count = 1 << 63),
        ("a turn of nobody", |_, s| s.turn = 2),
    ];

    fn buffers() -> Buffers {
        Buffers::new(vec![0; 65_536], vec![0; 65_536], b"modules\t1\n".to_vec())
    }

    fn begun(archive: &Here) -> State {
        let mut b = buffers();
        archive.begin(archive.mount(&mut b, 0).state, &mut b, &[0; 128]).state
    }

    fn ask(archive: &Here, call: ModuleCall, state: State, b: &mut Buffers, at: u64, words: &[u64]) -> raw::Answer {
        let mut memory = [b'a'; 256];
        for (n, word) in words.iter().enumerate() {
            memory[at as usize + 8 * n..][..8].copy_from_slice(&word.to_le_bytes());
        }
        match call {
            Write => archive.write(state, &memory, b, at),
            Read => archive.read(state, &mut memory, b, at),
            Open => archive.open(state, &memory, b, at),
            Next => archive.next(state, &mut memory, b, at),
            Close => archive.close(state, &memory, b, at),
        }
    }

    /// "254 for anything before check 4": beside each field that is bad too, the first is named.
    #[test]
    fn what_comes_before_the_record_is_named_before_every_field() {
        let archive = Here::default();
        for (call, field, at, words) in BAD {
            let state = begun(&archive);
            let a = ask(&archive, call, state, &mut buffers(), at, words);
            assert_eq!((a.code, a.value, Some(a.field)), (-5, 0, field.number(call)), "{call} {words:?}");
            for (name, spoil) in BEFORE {
                let (mut b, mut other) = (buffers(), state);
                spoil(&mut b, &mut other);
                let a = ask(&archive, call, other, &mut b, at, words);
                assert_eq!((a.code, a.value, a.field), (-5, 0, 254), "{call} {words:?}, {name}");
                assert_eq!(a.state, other, "{call} {words:?}, {name}");
            }
        }
    }

    /// Of the module calls next alone is lent the index: to the others its length is nothing, and their own fields are named.
    #[test]
    fn another_length_of_the_index_is_named_by_next_alone() {
        let archive = Here::default();
        for (call, field, at, words) in BAD {
            let state = begun(&archive);
            for entries in [0, 480, 482] {
                let mut b = buffers();
                b.index.resize(entries, 0);
                let a = ask(&archive, call, state, &mut b, at, words);
                let named = if call == Next { Some(254) } else { field.number(call) };
                assert_eq!((a.code, Some(a.field), a.state), (-5, named, state), "{call} {words:?}, {entries} entries");
            }
        }
    }

    /// They are no module calls: what would be 254 or a topic there is 0.
    #[test]
    fn begin_and_ingress_name_no_field() {
        let archive = Here::default();
        let state = begun(&archive);
        for (name, spoil) in BEFORE {
            let (mut b, mut other) = (buffers(), state);
            spoil(&mut b, &mut other);
            let a = archive.ingress(other, &mut b, b"loop/take", b"");
            assert_eq!((a.code, a.field), (-5, 0), "ingress, {name}");
            let a = archive.begin(other, &mut b, &[0; 128]);
            assert_eq!((a.code, a.field), (-5, 0), "begin, {name}");
        }
        let a = archive.ingress(state, &mut buffers(), b"", b"");
        assert_eq!((a.code, a.field), (-5, 0));
        let fresh = archive.mount(&mut buffers(), 0).state;
        let a = archive.begin(fresh, &mut buffers(), &[0; 127]);
        assert_eq!((a.code, a.field), (-5, 0));
    }
}
