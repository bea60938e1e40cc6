//! A safe owner: the box's state and its buffers in one place, and every operation of the archive over them.
use crate::lent::{self, Caller, Here, Place};
pub use crate::lent::{Buffers, Fate, Field, ModuleCall, Refusal};
use crate::raw::{self, State};

/// What begin and ingress answer: a number that is 0 or more, or document 01's code.
pub type Answer = Result<u64, i64>;

/// What a module call (write, read, open, next, close) answers: a number that is 0 or more, or why it was refused.
pub type ModuleAnswer = Result<u64, Refusal>;

/// A refused mount: its code and, with -3, the offset of the first record not sound. The buffers are handed back.
#[derive(Debug)]
pub struct Refused {
    pub code: i64,
    pub at: u64,
    pub buffers: Buffers,
}

/// A mounted box. While it lives nobody else writes its buffers, and each state is used once, the last one: this is what promises 2
/// and 3 build on.
///
/// Among its buffers is the index, a table with the card's offset of each record, by which next and look-up find one without a walk over the card.
/// Mount fills it, and a commit enters the new records. A card of n bytes never needs more than n / 136 entries: [`Buffers::new`] makes so many. A
/// table with fewer entries than the card has records is -5 at mount; at the last return one with too few for what is staged is a discard with -4.
///
/// A topic has 1 to 2,048 bytes, a filter 0 to 64, in UTF-8 with no control byte (0 to 31, and 127): else -5, in a call, at ingress and in
/// the manifest. A record from before may have byte 127 in its topic: the card mounts, look-up shows it, and no list and no read has it.
///
/// Module calls spend the weave's units: a write 1 + total_len / 8, read and next 1 + bytes written / 8, open and close 1. The manifest's second line
/// may be `charge`, a tab, and 1 or 2: under 2 a write costs 4 + total_len / 64, rounded up; 1 is as without the line. Any other charge line is -5.
///
/// A module call that is refused with -5 says for which field: [`Refusal::Bad`]. It is the first that failed, in the order of the checks. The
/// module itself is answered the code alone, [`Refusal::code`]; the field is for whoever reads along.
pub struct Host {
    archive: Here,
    state: State,
    buffers: Buffers,
}

impl Host {
    pub fn mount(mut buffers: Buffers, used: u64) -> Result<Host, Box<Refused>> {
        let archive = Here::default();
        assert_eq!(
            archive.state_size(),
            size_of::<State>() as u64,
            "this crate and the archive do not belong together"
        );
        let m = archive.mount(&mut buffers, used);
        match m.code {
            0 => Ok(Host { archive, state: m.state, buffers }),
            code => Err(Box::new(Refused { code: lent::refusal(code), at: m.at, buffers })),
        }
    }

    #[must_use]
    pub fn state(&self) -> &State {
        &self.state
    }

    /// The used part of the card: what the next mount takes.
    #[must_use]
    pub fn used(&self) -> &[u8] {
        &self.buffers.card[..self.state.used as usize]
    }

    /// The end of the box's life: its buffers, and how much of the card is in use, which the next mount is told. A weave that was
    /// running is gone.
    #[must_use = "the next mount wants both"]
    pub fn into_buffers(self) -> (Buffers, u64) {
        (self.buffers, self.state.used)
    }

    pub fn begin(&mut self, args: &[u8]) -> Answer {
        self.settle(|archive, state, b| archive.begin(state, b, args))
    }

    pub fn ingress(&mut self, topic: &[u8], payload: &[u8]) -> Answer {
        self.settle(|archive, state, b| archive.ingress(state, b, topic, payload))
    }

    /// The argument record lies at `at` in the module's memory, here and in the four calls below.
    pub fn write(&mut self, memory: &[u8], at: u64) -> ModuleAnswer {
        self.settle_module(ModuleCall::Write, |archive, state, b| archive.write(state, memory, b, at))
    }

    pub fn read(&mut self, memory: &mut [u8], at: u64) -> ModuleAnswer {
        self.settle_module(ModuleCall::Read, |archive, state, b| archive.read(state, memory, b, at))
    }

    pub fn open(&mut self, memory: &[u8], at: u64) -> ModuleAnswer {
        self.settle_module(ModuleCall::Open, |archive, state, b| archive.open(state, memory, b, at))
    }

    /// It looks at the records from the cursor's place through the one that ends the page, and at no others.
    pub fn next(&mut self, memory: &mut [u8], at: u64) -> ModuleAnswer {
        self.settle_module(ModuleCall::Next, |archive, state, b| archive.next(state, memory, b, at))
    }

    pub fn close(&mut self, memory: &[u8], at: u64) -> ModuleAnswer {
        self.settle_module(ModuleCall::Close, |archive, state, b| archive.close(state, memory, b, at))
    }

    pub fn module_return(&mut self, code: i64) -> Fate {
        let r = self.archive.module_return(self.state, &mut self.buffers, code);
        self.state = r.state;
        lent::fate(r.outcome)
    }

    /// The record with this id, on the card by its entry in the index, or in the staging; empty where there is none. It is the record as the card
    /// holds it: the topic of an old card may have byte 127, so mind what you print it on.
    #[must_use]
    pub fn look_up(&self, id: u64) -> &[u8] {
        match lent::place(self.archive.look_up(self.state, &self.buffers, id)) {
            Place::Nowhere => &[],
            Place::Card { at, len } => &self.buffers.card[at as usize..(at + len) as usize],
            Place::Staging { at, len } => &self.buffers.staging[at as usize..(at + len) as usize],
        }
    }

    fn settle(&mut self, call: impl FnOnce(&Here, State, &mut Buffers) -> raw::Answer) -> Answer {
        lent::answer(&self.kept(call))
    }

    fn settle_module(
        &mut self,
        which: ModuleCall,
        call: impl FnOnce(&Here, State, &mut Buffers) -> raw::Answer,
    ) -> ModuleAnswer {
        lent::module_answer(which, &self.kept(call))
    }

    /// A call, and the state that it hands back is the next one's.
    fn kept(&mut self, call: impl FnOnce(&Here, State, &mut Buffers) -> raw::Answer) -> raw::Answer {
        let a = call(&self.archive, self.state, &mut self.buffers);
        self.state = a.state;
        a
    }
}
