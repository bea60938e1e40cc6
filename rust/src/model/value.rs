//! A Filament value: taken from a module's memory, and written as it is stored or shown.
use super::bytes::{span, u32_at, u64_at};
use super::{need, Code, BAD, BAD_VALUE};

/// "A decoded scalar is one of unit, boolean, signed, unsigned or float"; a string and a byte array have bytes besides.
#[derive(Clone, Debug, PartialEq, Eq)]
pub enum Kind {
    Unit,
    Boolean(bool),
    Signed(i64),
    Unsigned(u64),
    /// the bits of a float, canonical
    Float(u64),
    Text(Vec<u8>),
    Bytes(Vec<u8>),
}

#[derive(Clone, Debug, PartialEq, Eq)]
pub struct Value {
    pub flags: u32,
    pub kind: Kind,
}

/// Where the bytes of a string or byte array are to be had.
type Fetch<'a> = &'a dyn Fn(u64, u64) -> Option<&'a [u8]>;

impl Value {
    /// The value whose 32 bytes these are. "The checks: type (6, 7, 8 and above 9 give -7), span (-5), UTF-8 of a string (-7)."
    fn of(cell: &[u8], fetch: Fetch) -> Result<Value, Code> {
        let word = u64_at(cell, 8);
        let kind = match u32_at(cell, 0) {
            0 => Kind::Unit,
            1 => Kind::Boolean(match cell[8] {
                0 => false,
                1 => true,
                _ => return Err(BAD_VALUE),
            }),
            2 => Kind::Signed(word as i64),
            3 => Kind::Unsigned(word),
            4 => Kind::Float(canonical(word)),
            5 => {
                let text = fetch(word, u64_at(cell, 16)).ok_or(BAD)?;
                need(std::str::from_utf8(text).is_ok(), BAD_VALUE)?;
                Kind::Text(text.to_vec())
            }
            9 => Kind::Bytes(fetch(word, u64_at(cell, 16)).ok_or(BAD)?.to_vec()),
            _ => return Err(BAD_VALUE),
        };
        Ok(Value { flags: u32_at(cell, 4), kind })
    }

    /// The value that a module has in its memory.
    pub fn in_memory(memory: &[u8], cell: &[u8]) -> Result<Value, Code> {
        Value::of(cell, &|ptr, len| span(memory, ptr, len))
    }

    /// The value that a stored payload may be: its bytes are those behind the 32, whatever ptr and len say. Whether
    /// these say just that is seen when the event is written again.
    pub fn in_payload(payload: &[u8]) -> Option<Value> {
        if payload.len() < 32 {
            return None;
        }
        let (cell, rest) = payload.split_at(32);
        Value::of(cell, &|_, _| Some(rest)).ok()
    }

    /// "The stored value has type, flags and the union; unused bytes are 0." A string's or byte array's ptr is `ptr`.
    pub fn payload(&self, ptr: u64) -> Vec<u8> {
        let (number, words, rest): (u32, [u64; 2], &[u8]) = match &self.kind {
            Kind::Unit => (0, [0, 0], &[]),
            Kind::Boolean(b) => (1, [*b as u64, 0], &[]),
            Kind::Signed(n) => (2, [*n as u64, 0], &[]),
            Kind::Unsigned(n) => (3, [*n, 0], &[]),
            Kind::Float(bits) => (4, [*bits, 0], &[]),
            Kind::Text(s) => (5, [ptr, s.len() as u64], s),
            Kind::Bytes(s) => (9, [ptr, s.len() as u64], s),
        };
        let mut out = Vec::with_capacity(32 + rest.len());
        out.extend(number.to_le_bytes());
        out.extend(self.flags.to_le_bytes());
        out.extend(words[0].to_le_bytes());
        out.extend(words[1].to_le_bytes());
        out.extend([0; 8]);
        out.extend(rest);
        out
    }
}

/// "A float that is not a number is stored as 0x7FF8000000000000; all others keep their bits."
fn canonical(bits: u64) -> u64 {
    if f64::from_bits(bits).is_nan() {
        0x7FF8_0000_0000_0000
    } else {
        bits
    }
}
