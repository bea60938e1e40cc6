//! The model and the archive side by side: one call goes to both, and everything is compared.
use super::{charge, del, field, index, view};
use crate::lent::{self, Buffers, Caller, Fate, ModuleCall, Place};
use crate::model::{self, Fault, Lent, State};
use crate::raw;
use std::collections::BTreeMap;
use std::fmt::Debug;
use std::rc::Rc;

#[derive(Clone, Debug)]
pub enum Call {
    Mount { used: u64 },
    Begin { args: Vec<u8> },
    Ingress { topic: Vec<u8>, payload: Vec<u8> },
    Write { at: u64 },
    Read { at: u64 },
    Open { at: u64 },
    Next { at: u64 },
    Close { at: u64 },
    Return { code: i64 },
    LookUp { id: u64 },
}

/// What both said.
#[derive(Clone, Copy, Debug, PartialEq, Eq)]
pub enum Said {
    Mounted { code: i64, at: u64 },
    Answer { code: i64, value: u64, field: u64 },
    Fate(Fate),
    Place(Place),
}

#[derive(Clone, Copy, Debug, PartialEq, Eq)]
pub enum Buffer {
    Memory,
    Staging,
    Card,
    Manifest,
}

/// Where the two came apart.
#[derive(Debug)]
pub struct Difference(pub String);

pub type Agreed<T> = Result<T, Difference>;

/// How often each operation gave each answer; and among these, how often byte 127, a charge rule or the table had to do with it, and for which
/// field a -5 was.
pub type Tally = BTreeMap<(&'static str, String), u64>;

pub struct Twin {
    archive: Rc<dyn Caller>,
    /// the model's side; ours is the same before each call
    pub state: State,
    pub lent: Lent,
    memory: Vec<u8>,
    buffers: Buffers,
    pub calls: u64,
    pub tally: Tally,
    charged: charge::Charged,
    /// print every call
    pub aloud: bool,
}

impl Twin {
    pub fn new(archive: Rc<dyn Caller>) -> Twin {
        let (memory, buffers) = Default::default();
        Twin {
            archive,
            state: State::NONE,
            lent: Lent::default(),
            memory,
            buffers,
            calls: 0,
            tally: Tally::new(),
            charged: Default::default(),
            aloud: false,
        }
    }

    fn both(&mut self, which: Buffer) -> [&mut Vec<u8>; 2] {
        match which {
            Buffer::Memory => [&mut self.lent.memory, &mut self.memory],
            Buffer::Staging => [&mut self.lent.staging, &mut self.buffers.staging],
            Buffer::Card => [&mut self.lent.card, &mut self.buffers.card],
            Buffer::Manifest => [&mut self.lent.manifest, &mut self.buffers.manifest],
        }
    }

    /// Another buffer on both sides; the one before is handed back.
    pub fn lend(&mut self, which: Buffer, bytes: Vec<u8>) -> Vec<u8> {
        let [models, ours] = self.both(which);
        *ours = bytes.clone();
        std::mem::replace(models, bytes)
    }

    /// Bytes put into a buffer on both sides, as far as they lie inside.
    pub fn poke(&mut self, which: Buffer, at: u64, bytes: &[u8]) {
        for buffer in self.both(which) {
            let Ok(at) = usize::try_from(at) else { return };
            if at < buffer.len() {
                let n = bytes.len().min(buffer.len() - at);
                buffer[at..at + n].copy_from_slice(&bytes[..n]);
            }
        }
    }

    /// Another table on both sides; the one before is handed back.
    pub fn lend_index(&mut self, index: Vec<u32>) -> Vec<u32> {
        self.buffers.index = index.clone();
        std::mem::replace(&mut self.lent.index, index)
    }

    /// One call to both sides.
    pub fn call(&mut self, call: Call) -> Agreed<Said> {
        self.call_from(view::state(&self.state), call)
    }

    /// One call from a state of C's own making: any number in any field. The model's state is what such numbers say.
    pub fn call_from(&mut self, before: raw::State, call: Call) -> Agreed<Said> {
        self.state = view::said(&before);
        if self.aloud {
            println!("{:6} {}", self.calls, told(&call, &self.lent.memory));
            let plain = view::state(&self.state);
            if plain != before {
                println!("       from a state with {}", fields(&plain, &before));
            }
        }
        let was = self.state;
        let (cursor, asked) = (del::cursor(&call, &was, &self.lent), index::asked(&call, &was, &self.lent));
        let models = models(&mut self.state, &mut self.lent, &call);
        let (ours, state) = self.ours(&call, before);
        self.calls += 1;
        if self.aloud {
            println!("       {models:?}");
        }
        let expected = view::state(&self.state);
        self.compare(models == ours, || format!("the model says {models:?}, the host {ours:?}"), &call)?;
        self.compare(state == expected, || differ(&expected, &state), &call)?;
        self.compare_buffers(&call)?;
        let del = del::met(&call, &models, cursor, &self.state, &self.lent);
        let charge = self.charged.met(&call, &models, &was, &self.state, &self.lent);
        let index = index::met(&call, &models, asked, &was, &self.lent);
        let field = field::met(&call, &models, &self.state, &self.lent);
        let met = del.into_iter().chain(charge).map(String::from).chain(index).chain(field);
        for what in std::iter::once(short(&models)).chain(met) {
            *self.tally.entry((name(&call), what)).or_insert(0) += 1;
        }
        Ok(models)
    }

    fn compare_buffers(&self, call: &Call) -> Agreed<()> {
        let (m, o) = (&self.lent, &self.buffers);
        self.compare(self.memory == m.memory, || bytes("memory", &m.memory, &self.memory), call)?;
        self.compare(o.staging == m.staging, || bytes("staging", &m.staging, &o.staging), call)?;
        self.compare(o.card == m.card, || bytes("card", &m.card, &o.card), call)?;
        self.compare(o.manifest == m.manifest, || bytes("manifest", &m.manifest, &o.manifest), call)?;
        self.compare(o.index == m.index, || bytes("index", &m.index, &o.index), call)
    }

    fn compare(&self, same: bool, why: impl FnOnce() -> String, call: &Call) -> Agreed<()> {
        if same {
            return Ok(());
        }
        Err(Difference(format!("{}\n  {}", told(call, &self.lent.memory), why())))
    }

    fn ours(&mut self, call: &Call, state: raw::State) -> (Said, raw::State) {
        let (archive, memory, b) = (&self.archive, &mut self.memory, &mut self.buffers);
        let a = match call {
            Call::Mount { used } => {
                let m = archive.mount(b, *used);
                return (Said::Mounted { code: m.code, at: m.at }, m.state);
            }
            Call::Return { code } => {
                let r = archive.module_return(state, b, *code);
                return (Said::Fate(lent::fate(r.outcome)), r.state);
            }
            // no state comes back
            Call::LookUp { id } => {
                return (Said::Place(lent::place(archive.look_up(state, b, *id))), view::state(&self.state));
            }
            Call::Begin { args } => archive.begin(state, b, args),
            Call::Ingress { topic, payload } => archive.ingress(state, b, topic, payload),
            Call::Write { at } => archive.write(state, memory, b, *at),
            Call::Read { at } => archive.read(state, memory, b, *at),
            Call::Open { at } => archive.open(state, memory, b, *at),
            Call::Next { at } => archive.next(state, memory, b, *at),
            Call::Close { at } => archive.close(state, memory, b, *at),
        };
        (Said::Answer { code: a.code, value: a.value, field: a.field }, a.state)
    }
}

impl Call {
    /// This module call, its argument record at `at`.
    pub fn of_a_module(call: ModuleCall, at: u64) -> Call {
        match call {
            ModuleCall::Write => Call::Write { at },
            ModuleCall::Read => Call::Read { at },
            ModuleCall::Open => Call::Open { at },
            ModuleCall::Next => Call::Next { at },
            ModuleCall::Close => Call::Close { at },
        }
    }

    /// Which module call this is and where its argument record lies, if it is one.
    pub fn module(&self) -> Option<(ModuleCall, u64)> {
        match self {
            Call::Write { at } => Some((ModuleCall::Write, *at)),
            Call::Read { at } => Some((ModuleCall::Read, *at)),
            Call::Open { at } => Some((ModuleCall::Open, *at)),
            Call::Next { at } => Some((ModuleCall::Next, *at)),
            Call::Close { at } => Some((ModuleCall::Close, *at)),
            _ => None,
        }
    }
}

/// What the model says.
pub fn models(state: &mut State, lent: &mut Lent, call: &Call) -> Said {
    let answer = match call {
        Call::Mount { used } => {
            let (said, next) = State::mount(lent, *used);
            *state = next;
            let (code, at) = said.err().unwrap_or((0, 0));
            return Said::Mounted { code, at };
        }
        Call::Return { code } => return Said::Fate(plain(state.module_return(lent, *code))),
        Call::LookUp { id } => return Said::Place(plain_place(state.look_up(lent, *id))),
        // no module calls: their -5 has no field
        Call::Begin { args } => state.begin(lent, args).map_err(|code| Fault { code, field: 0 }),
        Call::Ingress { topic, payload } => {
            state.ingress(lent, topic, payload).map_err(|code| Fault { code, field: 0 })
        }
        Call::Write { at } => state.write(lent, *at),
        Call::Read { at } => state.read(lent, *at),
        Call::Open { at } => state.open(lent, *at),
        Call::Next { at } => state.next(lent, *at),
        Call::Close { at } => state.close(lent, *at),
    };
    match answer {
        Ok(value) => Said::Answer { code: 0, value, field: 0 },
        Err(Fault { code, field }) => Said::Answer { code, value: 0, field },
    }
}

fn plain(fate: model::Fate) -> Fate {
    match fate {
        model::Fate::Refused(code) => Fate::Refused(code),
        model::Fate::Discarded(code) => Fate::Discarded(code),
        model::Fate::Running => Fate::Running,
        model::Fate::Committed { events, bytes } => Fate::Committed { events, bytes },
    }
}

fn plain_place(place: model::Place) -> Place {
    match place {
        model::Place::Nowhere => Place::Nowhere,
        model::Place::Card { at, len } => Place::Card { at, len },
        model::Place::Staging { at, len } => Place::Staging { at, len },
    }
}

// ---- words for people

fn name(call: &Call) -> &'static str {
    match call {
        Call::Mount { .. } => "mount",
        Call::Begin { .. } => "begin",
        Call::Ingress { .. } => "ingress",
        Call::Write { .. } => "write",
        Call::Read { .. } => "read",
        Call::Open { .. } => "tl_open",
        Call::Next { .. } => "tl_next",
        Call::Close { .. } => "tl_close",
        Call::Return { .. } => "return",
        Call::LookUp { .. } => "look-up",
    }
}

fn short(said: &Said) -> String {
    match said {
        Said::Mounted { code, .. } => format!("{code}"),
        Said::Answer { code: 0, value: 0, .. } => "0".into(),
        Said::Answer { code: 0, .. } => "above 0".into(),
        Said::Answer { code, .. } => format!("{code}"),
        Said::Fate(Fate::Refused(code)) => format!("{code}"),
        Said::Fate(Fate::Discarded(code)) => format!("discarded {code}"),
        Said::Fate(Fate::Running) => "running".into(),
        Said::Fate(Fate::Committed { events: 0, .. }) => "committed, empty".into(),
        Said::Fate(Fate::Committed { .. }) => "committed".into(),
        Said::Place(Place::Nowhere) => "nowhere".into(),
        Said::Place(Place::Card { .. }) => "on the card".into(),
        Said::Place(Place::Staging { .. }) => "in staging".into(),
    }
}

/// A call, with the bytes of its argument record.
fn told(call: &Call, memory: &[u8]) -> String {
    let (at, size) = match call {
        Call::Write { at } | Call::Read { at } => (*at, 40),
        Call::Open { at } => (*at, 48),
        Call::Next { at } => (*at, 24),
        Call::Close { at } => (*at, 8),
        _ => return format!("{call:?}").chars().take(2_000).collect(),
    };
    let words = model::bytes::span(memory, at, size);
    let words: Vec<u64> = words.map_or(Vec::new(), |r| r.chunks_exact(8).map(|w| model::bytes::u64_at(w, 0)).collect());
    format!("{call:?} in a memory of {}, its record {words:?}", memory.len())
}

/// The fields in which two states are not alike.
fn fields(one: &raw::State, other: &raw::State) -> String {
    let (a, b) = (format!("{one:#?}"), format!("{other:#?}"));
    let apart = a.lines().zip(b.lines()).filter(|(x, y)| x != y);
    apart.map(|(x, y)| format!("{} / {}", x.trim(), y.trim())).collect::<Vec<String>>().join(", ")
}

fn differ(model: &raw::State, ours: &raw::State) -> String {
    format!("the model's state and the host's differ: {}", fields(model, ours))
}

/// The bytes of a buffer, or the entries of the table.
fn bytes<T: Copy + PartialEq + Debug>(name: &str, model: &[T], ours: &[T]) -> String {
    let at = model.iter().zip(ours).position(|(a, b)| a != b).unwrap_or(0);
    let shown = |s: &[T]| s[at..(at + 16).min(s.len())].to_vec();
    format!("{name} differs from place {at} on: the model has {:?}, the host {:?}", shown(model), shown(ours))
}
