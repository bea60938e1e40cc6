//! "Numbers are little-endian." Spans and sizes.

pub fn u32_at(s: &[u8], at: usize) -> u32 {
    u32::from_le_bytes(s[at..at + 4].try_into().unwrap())
}

pub fn u64_at(s: &[u8], at: usize) -> u64 {
    u64::from_le_bytes(s[at..at + 8].try_into().unwrap())
}

/// "up8(n) being the least multiple of 8 not below n"
pub fn up8(n: u128) -> u128 {
    n.div_ceil(8) * 8
}

/// "A span (ptr, len) is inside memory of size m when ptr ≤ m, len ≤ m − ptr, and len = 0 or ptr ≠ 0. All else: -5."
pub fn span(memory: &[u8], ptr: u64, len: u64) -> Option<&[u8]> {
    if len > 0 && ptr == 0 {
        return None;
    }
    // on whole numbers, so that no sum wraps
    let end = ptr as u128 + len as u128;
    if end > memory.len() as u128 {
        return None;
    }
    Some(&memory[ptr as usize..end as usize])
}

/// "Argument record addresses, out_ptr and the address of a value are multiples of 8, else -5."
pub fn aligned_span(memory: &[u8], ptr: u64, len: u64) -> Option<&[u8]> {
    if ptr % 8 != 0 {
        return None;
    }
    span(memory, ptr, len)
}
