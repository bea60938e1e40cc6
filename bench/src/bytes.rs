//! Numbers, spans and texts in bytes.

pub type Code = i64;

pub fn u32_at(s: &[u8], at: usize) -> u32 {
    u32::from_le_bytes(s[at..at + 4].try_into().unwrap())
}

pub fn u64_at(s: &[u8], at: usize) -> u64 {
    u64::from_le_bytes(s[at..at + 8].try_into().unwrap())
}

pub fn need(holds: bool, code: Code) -> Result<(), Code> {
    if holds {
        Ok(())
    } else {
        Err(code)
    }
}

pub fn zero(s: &[u8]) -> bool {
    !has(s, |b| *b != 0)
}

/// Every byte is looked at, with no stop at the first that is found: so the compiler takes many at a time.
fn has(s: &[u8], bad: impl Fn(&u8) -> bool) -> bool {
    s.iter().fold(false, |found, b| found | bad(b))
}

/// A topic of a call or a grant.
pub fn good_topic(s: &[u8]) -> bool {
    (1..=2_048).contains(&s.len()) && !has(s, u8::is_ascii_control) && std::str::from_utf8(s).is_ok()
}

/// A topic of a record: one of an old card may have byte 127.
pub fn card_topic(s: &[u8]) -> bool {
    (1..=2_048).contains(&s.len()) && !has(s, |b| *b < 32) && std::str::from_utf8(s).is_ok()
}

pub fn span(memory: &[u8], ptr: u64, len: u64) -> Option<&[u8]> {
    let m = memory.len() as u64;
    let inside = ptr <= m && len <= m - ptr && (len == 0 || ptr != 0);
    inside.then(|| &memory[ptr as usize..(ptr + len) as usize])
}

pub fn aligned(memory: &[u8], ptr: u64, len: u64) -> Option<&[u8]> {
    span(memory, ptr, len).filter(|_| ptr % 8 == 0)
}
