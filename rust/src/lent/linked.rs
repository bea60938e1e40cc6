//! The archive linked into this program.
use super::{Buffers, Caller};
use crate::raw::{self, State};

#[derive(Default)]
pub struct Linked;

impl Caller for Linked {
    fn state_size(&self) -> u64 {
        unsafe { raw::loafheron_state_size() }
    }

    fn mount(&self, b: &mut Buffers, used: u64) -> raw::Mounted {
        let (s, c, m, i) = (&b.staging, &b.card, &b.manifest, &mut b.index);
        unsafe {
            raw::loafheron_mount(
                s.as_ptr(),
                s.len(),
                c.as_ptr(),
                c.len(),
                m.as_ptr(),
                m.len(),
                i.as_mut_ptr(),
                i.len(),
                used,
            )
        }
    }

    fn begin(&self, state: State, b: &mut Buffers, args: &[u8]) -> raw::Answer {
        let (s, c, m) = (&mut b.staging, &b.card, &b.manifest);
        unsafe {
            raw::loafheron_begin(
                state,
                s.as_mut_ptr(),
                s.len(),
                c.as_ptr(),
                c.len(),
                m.as_ptr(),
                m.len(),
                args.as_ptr(),
                args.len(),
            )
        }
    }

    fn ingress(&self, state: State, b: &mut Buffers, topic: &[u8], payload: &[u8]) -> raw::Answer {
        let (s, c, m) = (&mut b.staging, &b.card, &b.manifest);
        unsafe {
            raw::loafheron_ingress(
                state,
                s.as_mut_ptr(),
                s.len(),
                c.as_ptr(),
                c.len(),
                m.as_ptr(),
                m.len(),
                topic.as_ptr(),
                topic.len(),
                payload.as_ptr(),
                payload.len(),
            )
        }
    }

    fn write(&self, state: State, memory: &[u8], b: &mut Buffers, at: u64) -> raw::Answer {
        let (s, c, m) = (&mut b.staging, &b.card, &b.manifest);
        unsafe {
            raw::loafheron_write(
                state,
                memory.as_ptr(),
                memory.len(),
                s.as_mut_ptr(),
                s.len(),
                c.as_ptr(),
                c.len(),
                m.as_ptr(),
                m.len(),
                at,
            )
        }
    }

    fn read(&self, state: State, memory: &mut [u8], b: &Buffers, at: u64) -> raw::Answer {
        let (s, c, m) = (&b.staging, &b.card, &b.manifest);
        unsafe {
            raw::loafheron_read(
                state,
                memory.as_mut_ptr(),
                memory.len(),
                s.as_ptr(),
                s.len(),
                c.as_ptr(),
                c.len(),
                m.as_ptr(),
                m.len(),
                at,
            )
        }
    }

    fn open(&self, state: State, memory: &[u8], b: &Buffers, at: u64) -> raw::Answer {
        let (s, c, m) = (&b.staging, &b.card, &b.manifest);
        unsafe {
            raw::loafheron_open(
                state,
                memory.as_ptr(),
                memory.len(),
                s.as_ptr(),
                s.len(),
                c.as_ptr(),
                c.len(),
                m.as_ptr(),
                m.len(),
                at,
            )
        }
    }

    fn next(&self, state: State, memory: &mut [u8], b: &Buffers, at: u64) -> raw::Answer {
        let (s, c, m, i) = (&b.staging, &b.card, &b.manifest, &b.index);
        unsafe {
            raw::loafheron_next(
                state,
                memory.as_mut_ptr(),
                memory.len(),
                s.as_ptr(),
                s.len(),
                c.as_ptr(),
                c.len(),
                m.as_ptr(),
                m.len(),
                i.as_ptr(),
                i.len(),
                at,
            )
        }
    }

    fn close(&self, state: State, memory: &[u8], b: &Buffers, at: u64) -> raw::Answer {
        let (s, c, m) = (&b.staging, &b.card, &b.manifest);
        unsafe {
            raw::loafheron_close(
                state,
                memory.as_ptr(),
                memory.len(),
                s.as_ptr(),
                s.len(),
                c.as_ptr(),
                c.len(),
                m.as_ptr(),
                m.len(),
                at,
            )
        }
    }

    fn module_return(&self, state: State, b: &mut Buffers, code: i64) -> raw::Returned {
        let (s, c, m, i) = (&mut b.staging, &mut b.card, &b.manifest, &mut b.index);
        unsafe {
            raw::loafheron_return(
                state,
                s.as_mut_ptr(),
                s.len(),
                c.as_mut_ptr(),
                c.len(),
                m.as_ptr(),
                m.len(),
                i.as_mut_ptr(),
                i.len(),
                code,
            )
        }
    }

    fn look_up(&self, state: State, b: &Buffers, id: u64) -> raw::Place {
        let (s, c, m, i) = (&b.staging, &b.card, &b.manifest, &b.index);
        unsafe {
            raw::loafheron_look_up(
                state,
                s.as_ptr(),
                s.len(),
                c.as_ptr(),
                c.len(),
                m.as_ptr(),
                m.len(),
                i.as_ptr(),
                i.len(),
                id,
            )
        }
    }
}
