//! A twin of the host, written from the requirements (document 01, changed by 02) and docs/DECISIONS.md, not from the proved definitions.
//!
//! It is plain and slow on purpose: a card is parsed into a `Vec<Event>`, a record is sound when it is what its own
//! event would be written as, a list is a chain of iterator steps, and what the table has for a window is read before a page is made
//! of it. Nothing here walks bytes as the host does.
//! Numbers in comments, as (57), are entries of docs/DECISIONS.md.
pub mod bytes;
pub mod calls;
pub mod chain;
pub mod charge;
pub mod checks;
pub mod event;
pub mod index;
pub mod ledger;
pub mod manifest;
pub mod state;
pub mod text;
pub mod turns;
pub mod value;

pub use checks::Fault;
pub use state::{Cursor, Lengths, Lent, Slot, Spoiled, State, Weave};

/// A refusal, as document 01 numbers it.
pub type Code = i64;

pub const DENIED: Code = -1;
pub const NOT_NOW: Code = -2;
pub const UNSOUND: Code = -3;
pub const NO_ROOM: Code = -4;
pub const BAD: Code = -5;
pub const BUDGET: Code = -6;
pub const BAD_VALUE: Code = -7;

/// What begin and ingress answer: a number that is 0 or more, or a code.
pub type Answer = Result<u64, Code>;

/// What a module call answers: a number that is 0 or more, or a code and its field.
pub type CallAnswer = Result<u64, Fault>;

/// What a return leads to.
#[derive(Clone, Copy, Debug, PartialEq, Eq)]
pub enum Fate {
    Refused(Code),
    Discarded(Code),
    Running,
    Committed { events: u64, bytes: u64 },
}

/// Which buffer a looked-up record lies in.
#[derive(Clone, Copy, Debug, PartialEq, Eq)]
pub enum Place {
    Nowhere,
    Card { at: u64, len: u64 },
    Staging { at: u64, len: u64 },
}

/// `condition` holds, or the call is refused with `code`.
pub fn need(condition: bool, code: Code) -> Result<(), Code> {
    if condition {
        Ok(())
    } else {
        Err(code)
    }
}
