//! The archive in a program of its own (rust/server.c), told its calls through a pipe: for machines that cannot link it.
//!
//! The program has the five buffers. Before a call it is told what has changed in them here, and after it says what the call has changed,
//! whatever the buffer was lent as.
use super::{Buffers, Caller};
use crate::raw::{self, State};
use std::cell::RefCell;
use std::io::{BufReader, BufWriter, Read, Result, Write};
use std::mem::MaybeUninit;
use std::process::{Child, ChildStdin, ChildStdout, Command, Stdio};

/// tests/server writes it: the program, by the emulator where one is needed
const PROGRAM: &str = concat!(env!("CARGO_MANIFEST_DIR"), "/../target/server/run");

// what is asked, by the numbers of rust/server.c
const SIZE: u64 = 0;
const LEND: u64 = 1;
const POKE: u64 = 2;
const CALL: u64 = 3;
#[cfg(test)]
const STEP_OVER: u64 = 4;

const NAMES: [&str; 5] = ["memory", "staging", "card", "manifest", "index"];

/// what has changed is found and told in pieces of so many bytes
const BLOCK: usize = 4_096;

/// The functions, by the numbers of rust/server.c.
#[derive(Clone, Copy)]
enum Function {
    Mount,
    Begin,
    Ingress,
    Write,
    Read,
    Open,
    Next,
    Close,
    Return,
    LookUp,
}

/// A buffer for the length of one call.
enum Lent<'a> {
    /// not lent to this function
    No,
    Shown(&'a [u8]),
    Changed(&'a mut [u8]),
}

/// All of them, in the order of their names.
type All<'a> = [Lent<'a>; NAMES.len()];

/// Numbers and bytes without padding: any bytes are a good value.
unsafe trait Plain: Copy {}
unsafe impl Plain for u64 {}
unsafe impl Plain for State {}
unsafe impl Plain for raw::Mounted {}
unsafe impl Plain for raw::Answer {}
unsafe impl Plain for raw::Returned {}
unsafe impl Plain for raw::Place {}

fn bytes<A: Plain>(a: &A) -> &[u8] {
    unsafe { std::slice::from_raw_parts((a as *const A).cast(), size_of::<A>()) }
}

/// An index as bytes. Both sides have the lowest byte first, as with a state.
fn entries(index: &[u32]) -> &[u8] {
    unsafe { std::slice::from_raw_parts(index.as_ptr().cast(), size_of_val(index)) }
}

fn entries_mut(index: &mut [u32]) -> &mut [u8] {
    unsafe { std::slice::from_raw_parts_mut(index.as_mut_ptr().cast(), size_of_val(index)) }
}

struct Pipe {
    child: Child,
    to: BufWriter<ChildStdin>,
    from: BufReader<ChildStdout>,
    /// what the program's buffers hold
    there: [Vec<u8>; NAMES.len()],
}

pub struct Piped(RefCell<Pipe>);

impl Default for Piped {
    fn default() -> Piped {
        let child = Command::new(PROGRAM).stdin(Stdio::piped()).stdout(Stdio::piped()).spawn();
        let mut child = child.unwrap_or_else(|e| panic!("{PROGRAM}: {e}: tests/server makes it"));
        let to = BufWriter::with_capacity(1 << 16, child.stdin.take().unwrap());
        let from = BufReader::with_capacity(1 << 16, child.stdout.take().unwrap());
        Piped(RefCell::new(Pipe { child, to, from, there: Default::default() }))
    }
}

impl Drop for Pipe {
    fn drop(&mut self) {
        let _ = self.child.kill();
        let _ = self.child.wait();
    }
}

impl Pipe {
    fn put(&mut self, words: &[u64]) -> Result<()> {
        words.iter().try_for_each(|w| self.to.write_all(bytes(w)))
    }

    fn get<A: Plain>(&mut self) -> Result<A> {
        let mut a = MaybeUninit::<A>::zeroed();
        self.from.read_exact(unsafe { std::slice::from_raw_parts_mut(a.as_mut_ptr().cast(), size_of::<A>()) })?;
        Ok(unsafe { a.assume_init() })
    }

    /// The program's buffer becomes what this one is: whole where the length is another, else the pieces that differ.
    fn lend(&mut self, which: usize, now: &[u8]) -> Result<()> {
        if self.there[which].len() != now.len() {
            self.put(&[LEND, which as u64, now.len() as u64])?;
            self.there[which] = now.to_vec();
            return self.to.write_all(now);
        }
        for (n, piece) in now.chunks(BLOCK).enumerate() {
            let at = n * BLOCK;
            if self.there[which][at..at + piece.len()] != *piece {
                self.put(&[POKE, which as u64, at as u64, piece.len() as u64])?;
                self.to.write_all(piece)?;
                self.there[which][at..at + piece.len()].copy_from_slice(piece);
            }
        }
        Ok(())
    }

    /// What the call has changed, until the program says that this was all.
    fn changes(&mut self, lent: &mut All) -> Result<()> {
        loop {
            let which = self.get::<u64>()? as usize;
            if which == lent.len() {
                return Ok(());
            }
            let at = self.get::<u64>()? as usize;
            let piece = at..at + self.get::<u64>()? as usize;
            self.from.read_exact(&mut self.there[which][piece.clone()])?;
            match &mut lent[which] {
                Lent::Changed(ours) => ours[piece.clone()].copy_from_slice(&self.there[which][piece]),
                Lent::Shown(_) => panic!("the archive changed {} at {at}, which it may only read", NAMES[which]),
                Lent::No => panic!("the archive changed {} at {at}, which it was not lent", NAMES[which]),
            }
        }
    }

    fn call<A: Plain>(&mut self, f: Function, state: &State, mut lent: All, n: u64, more: [&[u8]; 2]) -> Result<A> {
        for (which, buffer) in lent.iter().enumerate() {
            match buffer {
                Lent::No => {}
                Lent::Shown(now) => self.lend(which, now)?,
                Lent::Changed(now) => self.lend(which, now)?,
            }
        }
        self.put(&[CALL, f as u64, n, more[0].len() as u64, more[1].len() as u64])?;
        self.to.write_all(bytes(state))?;
        more.iter().try_for_each(|m| self.to.write_all(m))?;
        self.to.flush()?;
        let answer = self.get()?;
        self.changes(&mut lent)?;
        Ok(answer)
    }

    fn ended(&mut self, e: std::io::Error) -> ! {
        let _ = self.child.kill();
        panic!("the archive's program ended in a call: {e}; {:?}", self.child.wait())
    }
}

impl Piped {
    fn call<A: Plain>(&self, f: Function, state: &State, lent: All, n: u64, more: [&[u8]; 2]) -> A {
        let pipe = &mut *self.0.borrow_mut();
        pipe.call(f, state, lent, n, more).unwrap_or_else(|e| pipe.ended(e))
    }

    /// A question that is answered by one number.
    fn ask(&self, words: &[u64]) -> u64 {
        let pipe = &mut *self.0.borrow_mut();
        let asked = pipe.put(words).and_then(|()| pipe.to.flush()).and_then(|()| pipe.get());
        asked.unwrap_or_else(|e| pipe.ended(e))
    }
}

/// Staging, card and manifest, for a function that changes none of them.
fn shown(b: &Buffers) -> All<'_> {
    [Lent::No, Lent::Shown(&b.staging), Lent::Shown(&b.card), Lent::Shown(&b.manifest), Lent::No]
}

/// The same for a function that changes the staging.
fn staging_open(b: &mut Buffers) -> All<'_> {
    [Lent::No, Lent::Changed(&mut b.staging), Lent::Shown(&b.card), Lent::Shown(&b.manifest), Lent::No]
}

/// These and the index, for a function that changes none of them.
fn index_shown(b: &Buffers) -> All<'_> {
    let [_, s, c, m, _] = shown(b);
    [Lent::No, s, c, m, Lent::Shown(entries(&b.index))]
}

fn with<'a>(memory: Lent<'a>, [_, s, c, m, i]: All<'a>) -> All<'a> {
    [memory, s, c, m, i]
}

const NONE: [&[u8]; 2] = [&[], &[]];

impl Caller for Piped {
    fn state_size(&self) -> u64 {
        self.ask(&[SIZE])
    }

    fn mount(&self, b: &mut Buffers, used: u64) -> raw::Mounted {
        let index = Lent::Changed(entries_mut(&mut b.index));
        let lent = [Lent::No, Lent::Shown(&b.staging), Lent::Shown(&b.card), Lent::Shown(&b.manifest), index];
        self.call(Function::Mount, &State::NONE, lent, used, NONE)
    }

    fn begin(&self, state: State, b: &mut Buffers, args: &[u8]) -> raw::Answer {
        self.call(Function::Begin, &state, staging_open(b), 0, [args, &[]])
    }

    fn ingress(&self, state: State, b: &mut Buffers, topic: &[u8], payload: &[u8]) -> raw::Answer {
        self.call(Function::Ingress, &state, staging_open(b), 0, [topic, payload])
    }

    fn write(&self, state: State, memory: &[u8], b: &mut Buffers, at: u64) -> raw::Answer {
        self.call(Function::Write, &state, with(Lent::Shown(memory), staging_open(b)), at, NONE)
    }

    fn read(&self, state: State, memory: &mut [u8], b: &Buffers, at: u64) -> raw::Answer {
        self.call(Function::Read, &state, with(Lent::Changed(memory), shown(b)), at, NONE)
    }

    fn open(&self, state: State, memory: &[u8], b: &Buffers, at: u64) -> raw::Answer {
        self.call(Function::Open, &state, with(Lent::Shown(memory), shown(b)), at, NONE)
    }

    fn next(&self, state: State, memory: &mut [u8], b: &Buffers, at: u64) -> raw::Answer {
        self.call(Function::Next, &state, with(Lent::Changed(memory), index_shown(b)), at, NONE)
    }

    fn close(&self, state: State, memory: &[u8], b: &Buffers, at: u64) -> raw::Answer {
        self.call(Function::Close, &state, with(Lent::Shown(memory), shown(b)), at, NONE)
    }

    fn module_return(&self, state: State, b: &mut Buffers, code: i64) -> raw::Returned {
        let index = Lent::Changed(entries_mut(&mut b.index));
        let (staging, card) = (Lent::Changed(&mut b.staging), Lent::Changed(&mut b.card));
        let lent = [Lent::No, staging, card, Lent::Shown(&b.manifest), index];
        self.call(Function::Return, &state, lent, code as u64, NONE)
    }

    fn look_up(&self, state: State, b: &Buffers, id: u64) -> raw::Place {
        self.call(Function::LookUp, &state, index_shown(b), id, NONE)
    }
}

#[cfg(test)]
mod tests {
    use super::*;

    /// A fence that is none would show nothing: who reads the byte behind a buffer does not live on.
    #[test]
    fn the_byte_behind_each_buffer_is_forbidden() {
        for which in 0..NAMES.len() {
            let archive = Piped::default();
            assert_eq!(archive.state_size(), size_of::<State>() as u64);
            let over = std::panic::AssertUnwindSafe(|| archive.ask(&[STEP_OVER, which as u64]));
            assert!(std::panic::catch_unwind(over).is_err(), "behind {}", NAMES[which]);
        }
    }
}
