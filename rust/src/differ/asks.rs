//! Argument records: put into the module's memory, good, or with one or two of their fields made bad.
use super::dice::Dice;
use super::stock;
use super::twin::{Buffer, Call, Twin};
use crate::model::text::LOG;

/// How a call is to be spoilt: how many of its fields get a number at an edge.
#[derive(Clone, Copy, Debug, PartialEq, Eq)]
pub struct Harm(pub u64);

/// An argument record in the making: its words, and what each may be wrong about.
struct Record {
    at: u64,
    words: Vec<u64>,
}

impl Record {
    /// One or two fields, or the address itself, become numbers at the edges of the memory.
    fn harm(&mut self, d: &mut Dice, memory: u64, harm: Harm) {
        for _ in 0..harm.0 {
            let n = d.index(self.words.len() + 1);
            match self.words.get_mut(n) {
                Some(word) => *word = if d.one_in(3) { d.edge(*word) } else { d.edge(memory) },
                None => self.at = if d.one_in(3) { self.at.wrapping_add(1 + d.below(7)) } else { d.edge(memory) },
            }
        }
    }

    fn put(&self, twin: &mut Twin) {
        let bytes: Vec<u8> = self.words.iter().flat_map(|w| w.to_le_bytes()).collect();
        twin.poke(Buffer::Memory, self.at, &bytes);
    }
}

fn memory(twin: &Twin) -> u64 {
    twin.lent.memory.len() as u64
}

/// An aligned address with so many bytes behind it, where there is one.
fn room(d: &mut Dice, twin: &Twin, bytes: u64) -> u64 {
    let m = memory(twin);
    if m < bytes + 16 {
        return 8;
    }
    8 + d.below((m - bytes - 8) / 8 + 1).saturating_sub(1) * 8
}

/// Bytes put somewhere in the memory, at any address; where they lie.
fn put_somewhere(d: &mut Dice, twin: &mut Twin, bytes: &[u8]) -> u64 {
    let at = room(d, twin, bytes.len() as u64 + 8) + d.below(8);
    twin.poke(Buffer::Memory, at, bytes);
    at
}

/// The topic of a call: mostly a good one.
fn topic(d: &mut Dice, topics: &[Vec<u8>]) -> Vec<u8> {
    match d.below(12) {
        0 => stock::odd_topic(d),
        1..=5 => b"loop/take".to_vec(),
        _ => d.pick(topics).clone(),
    }
}

pub fn write(d: &mut Dice, twin: &mut Twin, topics: &[Vec<u8>], most: usize, harm: Harm) -> Call {
    let topic = topic(d, topics);
    let topic_at = put_somewhere(d, twin, &topic);
    let flags = if d.one_in(12) { d.edge(8) & 0xFFFF_FFFF } else { *d.pick(&[1, 1, 2, 2, 9, 10]) };
    let (data, len) = match flags & 2 {
        0 => {
            let n = if d.one_in(8) { 0 } else { d.index(most + 1) };
            let payload = d.bytes(n);
            (put_somewhere(d, twin, &payload), n as u64)
        }
        _ => (value(d, twin, most), 32),
    };
    let padding = (d.word() << 32) | flags;
    let mut record = Record { at: room(d, twin, 40), words: vec![topic_at, topic.len() as u64, data, len, padding] };
    record.harm(d, memory(twin), harm);
    record.put(twin);
    Call::Write { at: record.at }
}

/// A raw write, to a topic that every module may write, whose record has just so many bytes.
pub fn write_of(d: &mut Dice, twin: &mut Twin, total: usize) -> Call {
    let topic_at = put_somewhere(d, twin, LOG);
    // what is left behind header and topic, less what is padded
    let n = total - 128 - LOG.len().next_multiple_of(8) - d.index(8);
    let payload = d.bytes(n);
    let data = put_somewhere(d, twin, &payload);
    let record = Record { at: room(d, twin, 40), words: vec![topic_at, LOG.len() as u64, data, n as u64, 1] };
    record.put(twin);
    Call::Write { at: record.at }
}

/// A value in the memory, with its string or bytes elsewhere; most are good.
fn value(d: &mut Dice, twin: &mut Twin, most: usize) -> u64 {
    let kind = if d.one_in(8) { d.edge(9) & 0xFFFF_FFFF } else { *d.pick(&[0, 1, 2, 3, 4, 5, 5, 9, 9]) };
    let mut cell = d.bytes(32);
    cell[..4].copy_from_slice(&(kind as u32).to_le_bytes());
    let first = match kind {
        1 => {
            let most = *d.pick(&[2, 2, 2, 2, 2, 256]);
            (d.word() << 8) | d.below(most)
        }
        4 => *d.pick(&[
            0x7FF8_0000_0000_0000,
            0x7FF0_0000_0000_0000,
            0xFFF0_0000_0000_0001,
            0x7FF0_0000_0000_0001,
            0x3FF0_0000_0000_0000,
            u64::MAX,
        ]),
        5 | 9 => {
            let bytes = words(d, kind, most);
            let at = put_somewhere(d, twin, &bytes);
            let len = if d.one_in(10) { d.edge(memory(twin)) } else { bytes.len() as u64 };
            cell[16..24].copy_from_slice(&len.to_le_bytes());
            if d.one_in(12) {
                d.edge(memory(twin))
            } else {
                at
            }
        }
        _ => d.edge(0),
    };
    cell[8..16].copy_from_slice(&first.to_le_bytes());
    let at = room(d, twin, 32);
    twin.poke(Buffer::Memory, at, &cell);
    at
}

/// What a string or bytes (9) hold. One in eight ends inside a character or has a byte where it may not stand.
fn words(d: &mut Dice, kind: u64, most: usize) -> Vec<u8> {
    let n = d.index(most + 1);
    let mut bytes = if kind == 9 { d.bytes(n) } else { stock::lyrics(n, d.index(25)) };
    if d.one_in(8) {
        let (at, odd) = (d.index(n + 1), d.byte());
        match odd {
            0..128 => bytes.extend(&"𝄞".as_bytes()[..1 + at % 3]),
            128.. => bytes.insert(at, odd),
        }
    }
    bytes
}

/// An out buffer: aligned, of so many bytes at most.
fn out(d: &mut Dice, twin: &Twin, most: u64) -> (u64, u64) {
    let cap = d.below(most.min(memory(twin)) + 1);
    (room(d, twin, cap), cap)
}

pub fn read(d: &mut Dice, twin: &mut Twin, topics: &[Vec<u8>], most: u64, harm: Harm) -> Call {
    let topic = topic(d, topics);
    let topic_at = put_somewhere(d, twin, &topic);
    let (out_ptr, cap) = out(d, twin, most);
    let start = match d.below(4) {
        0 => d.edge(twin.state.next),
        1 => twin.state.next.wrapping_add(d.below(4)),
        _ => 0,
    };
    let mut record = Record { at: room(d, twin, 40), words: vec![topic_at, topic.len() as u64, start, out_ptr, cap] };
    record.harm(d, memory(twin), harm);
    record.put(twin);
    Call::Read { at: record.at }
}

pub fn open(d: &mut Dice, twin: &mut Twin, topics: &[Vec<u8>], harm: Harm) -> Call {
    let mut filter = match d.below(6) {
        0 => Vec::new(),
        1 => topic(d, topics),
        2 => stock::edge_topic(d),
        _ => b"loop/take".to_vec(),
    };
    let n = if d.one_in(6) { 63 + d.index(3) } else { d.index(filter.len() + 1) };
    filter.truncate(n);
    let filter_at = put_somewhere(d, twin, &filter);
    let last = twin.state.next;
    let (mut from, mut to, mut limit) = (0, u64::MAX, u64::MAX);
    if d.one_in(3) {
        from = d.below(last.saturating_add(2));
    }
    if d.one_in(3) {
        to = d.edge(last);
    }
    if d.one_in(3) {
        limit = d.below(5);
    }
    let desc = if d.one_in(16) { d.below(256) } else { d.below(2) };
    let mut record = Record {
        at: room(d, twin, 48),
        words: vec![filter_at, filter.len() as u64, from, to, limit, (d.word() << 8) | desc],
    };
    record.harm(d, memory(twin), harm);
    record.put(twin);
    Call::Open { at: record.at }
}

/// The handle of an open cursor, mostly.
fn handle(d: &mut Dice, twin: &Twin) -> u64 {
    let open: Vec<u64> = twin.state.weave.slots.iter().map(|s| s.handle).filter(|h| *h != 0).collect();
    if open.is_empty() || d.one_in(10) {
        return d.edge(twin.state.weave.opened);
    }
    *d.pick(&open)
}

pub fn next(d: &mut Dice, twin: &mut Twin, most: u64, harm: Harm) -> Call {
    let (out_ptr, cap) = out(d, twin, most);
    let mut record = Record { at: room(d, twin, 24), words: vec![handle(d, twin), out_ptr, cap] };
    record.harm(d, memory(twin), harm);
    record.put(twin);
    Call::Next { at: record.at }
}

pub fn close(d: &mut Dice, twin: &mut Twin, harm: Harm) -> Call {
    let mut record = Record { at: room(d, twin, 8), words: vec![handle(d, twin)] };
    record.harm(d, memory(twin), harm);
    record.put(twin);
    Call::Close { at: record.at }
}

pub fn begin(d: &mut Dice, res_max: u64) -> Call {
    let n = if d.one_in(20) { d.pick(&[0, 127, 129, 3]).to_owned() } else { 128 };
    let mut args = d.bytes(n);
    if n >= 56 {
        args[24..32].copy_from_slice(&res_max.to_le_bytes());
        let time = d.edge(5_000);
        args[48..56].copy_from_slice(&time.to_le_bytes());
    }
    Call::Begin { args }
}

pub fn ingress(d: &mut Dice, topics: &[Vec<u8>], most: usize) -> Call {
    let n = d.index(most + 1);
    Call::Ingress { topic: topic(d, topics), payload: d.bytes(n) }
}

pub fn module_return(d: &mut Dice) -> Call {
    let code = match d.below(10) {
        0 => d.edge(0) as i64,
        1 => -1 - d.below(9) as i64,
        2 => 2,
        n => (n % 2) as i64,
    };
    Call::Return { code }
}

pub fn look_up(d: &mut Dice, twin: &Twin) -> Call {
    let id = match d.below(4) {
        0 => d.edge(twin.state.next),
        1 => twin.state.next.wrapping_add(d.below(4)),
        _ => d.below(twin.state.next.max(1)).wrapping_add(1),
    };
    Call::LookUp { id }
}
