//! The manifest, read in one pass.
use crate::bytes::good_topic;

/// A grant, by the place of its topic in the text: eight bytes, as all 64 are cleared and handed on in every call.
#[derive(Clone, Copy, Default)]
struct Line {
    start: u32,
    len: u16,
    module: u8,
    out: bool,
}

/// What a text says. It is filled where it lies and lent from there: handed back by value it would be copied at every call.
pub struct Grants<'a> {
    text: &'a [u8],
    pub modules: u64,
    /// how writes are charged: 1 or 2
    rule: u64,
    lines: [Line; 64],
    count: usize,
}

pub fn number(s: &[u8]) -> Option<u64> {
    match s {
        [d @ b'1'..=b'9'] => Some((d - b'0') as u64),
        [b'1', d @ b'0'..=b'6'] => Some(10 + (d - b'0') as u64),
        _ => None,
    }
}

/// The charge rule, and the lines behind the one that names it, if there is one. A bad one is left: it is no grant.
fn rule(text: &[u8]) -> (u64, &[u8]) {
    match text.strip_prefix(b"charge\t") {
        Some([b'1', b'\n', rest @ ..]) => (1, rest),
        Some([b'2', b'\n', rest @ ..]) => (2, rest),
        _ => (1, text),
    }
}

impl<'a> Grants<'a> {
    pub fn none() -> Grants<'a> {
        Grants { text: &[], modules: 0, rule: 1, lines: [Line::default(); 64], count: 0 }
    }

    /// Reads a text. What it has put down is nobody's where the text is bad.
    pub fn read(&mut self, text: &'a [u8]) -> Option<()> {
        if text.len() > 65_536 {
            return None;
        }
        let first = text.split_inclusive(|b| *b == b'\n').next()?;
        self.text = text;
        self.modules = number(first.strip_prefix(b"modules\t")?.strip_suffix(b"\n")?)?;
        let rest;
        (self.rule, rest) = rule(&text[first.len()..]);
        let mut end = text.len() - rest.len();
        for line in rest.split_inclusive(|b| *b == b'\n') {
            end += line.len();
            let mut fields = line.strip_prefix(b"grant\t")?.strip_suffix(b"\n")?.splitn(3, |b| *b == b'\t');
            let module = number(fields.next()?).filter(|n| *n <= self.modules)?;
            let out = match fields.next()? {
                b"in" => false,
                b"out" => true,
                _ => return None,
            };
            let topic = fields.next().filter(|t| good_topic(t))?;
            let start = (end - 1 - topic.len()) as u32;
            *self.lines.get_mut(self.count)? = Line { start, len: topic.len() as u16, module: module as u8, out };
            self.count += 1;
        }
        Some(())
    }

    /// What a write costs whose record has so many bytes.
    pub fn charge(&self, total: u64) -> u64 {
        match self.rule {
            2 => 4 + total.div_ceil(64),
            _ => 1 + total / 8,
        }
    }

    pub fn granted(&self, module: u64, out: bool, topic: &[u8]) -> bool {
        let core = out && (topic == b"filament/core/log" || topic == b"filament/core/panic");
        core || self.lines[..self.count].iter().any(|g| {
            g.module as u64 == module && g.out == out && &self.text[g.start as usize..][..g.len as usize] == topic
        })
    }
}
