//! The other side: the same operations in plain Rust, written as one would write them, with the same checks of documents 01
//! and 02 in the same order as far as these calls meet them. The manifest is read at every call, the last return walks all that is staged, next
//! and look-up find each record that they look at by the index and test it whole. Only the field of a -5 is left out, as no call that is measured
//! is refused.
mod calls;
mod manifest;
mod records;
mod turns;

#[derive(Clone, Copy)]
pub struct Plain {
    pub used: usize,
    pub next: u64,
    lengths: [usize; 3],
    /// of the index
    entries: usize,
    running: bool,
    spoiled: Option<i64>,
    turn: u64,
    late: bool,
    staged: usize,
    count: u64,
    units: u64,
    res_max: u64,
    time: u64,
    trace: [u8; 32],
    opened: u64,
    cursors: [Option<Cursor>; 4],
}

#[derive(Clone, Copy)]
struct Cursor {
    handle: u64,
    filter: [u8; 64],
    size: usize,
    from: u64,
    to: u64,
    limit: u64,
    down: bool,
}
