//! The lowest layers, by the archive of the crate `gauge`: the UTF-8 check and numbers in bytes.
use crate::buffers::{bytes, text, Dice};
use crate::clock::row;
use std::hint::black_box;

const MIB: usize = 1 << 20;
const PAIRS: usize = 100_000;
const NINES: usize = 100_000;

// ---- how long a text's characters are: each entry is as likely as the next
const MIXED: [usize; 4] = [1, 2, 3, 4];
const LYRICS: [usize; 40] = {
    let mut sizes = [1; 40];
    sizes[0] = 2;
    sizes
};

// ---- ours: a `&[u8]` passes as a pointer and then a length, and neither function requires anything
mod raw {
    extern "C" {
        pub fn gauge_utf8(s: *const u8, len: usize) -> bool;
        pub fn gauge_fields(s: *const u8, len: usize) -> u64;
    }
}

fn our_utf8(s: &[u8]) -> u64 {
    (unsafe { raw::gauge_utf8(s.as_ptr(), s.len()) }) as u64
}

fn our_fields(s: &[u8]) -> u64 {
    unsafe { raw::gauge_fields(s.as_ptr(), s.len()) }
}

// ---- Rust's. Never inlined: ours is a call into an archive, so this is a call too.
#[inline(never)]
fn rust_utf8(s: &[u8]) -> u64 {
    std::str::from_utf8(s).is_ok() as u64
}

#[inline(never)]
fn rust_fields(s: &[u8]) -> u64 {
    let mut sum = 0u64;
    for pair in s.chunks_exact(12) {
        let short = u32::from_le_bytes(pair[..4].try_into().unwrap());
        let long = u64::from_le_bytes(pair[4..].try_into().unwrap());
        sum = sum.wrapping_add(short as u64).wrapping_add(long);
    }
    sum
}

// ---- texts of nine bytes, one behind the other: how many are good
fn our_nines(s: &[u8]) -> u64 {
    s.chunks_exact(9).map(our_utf8).sum()
}

fn rust_nines(s: &[u8]) -> u64 {
    s.chunks_exact(9).map(rust_utf8).sum()
}

// ---- both sides give the same answer: whole, cut short, and with a byte changed
fn agree(s: &[u8]) {
    assert_eq!(our_utf8(s), rust_utf8(s), "utf8 of {} bytes", s.len());
    assert_eq!(our_fields(s), rust_fields(s), "fields of {} bytes", s.len());
}

fn agree_on_damage(text: &[u8]) {
    let mut d = Dice(3);
    for len in 0..200 {
        agree(&text[..len]);
        for _ in 0..50 {
            let mut s = text[..len].to_vec();
            if len > 0 {
                s[d.below(len as u64) as usize] = d.below(256) as u8;
            }
            agree(&s);
        }
    }
}

fn compare(name: &str, s: &[u8], ours: fn(&[u8]) -> u64, rusts: fn(&[u8]) -> u64) {
    row(name, &mut || ours(black_box(s)), &mut || rusts(black_box(s)));
}

pub fn rows() {
    let ascii = bytes(MIB, 0x20, 0x7F);
    let mixed = text(&mut Dice(2), MIB, &MIXED);
    let lyrics = text(&mut Dice(5), MIB, &LYRICS);
    let d = &mut Dice(4);
    let nines: Vec<u8> = (0..NINES).flat_map(|_| text(d, 9, &MIXED)).collect();
    let fields = bytes(12 * PAIRS, 0, 256);
    assert!([&ascii, &lyrics, &mixed].iter().all(|s| our_utf8(s) == 1) && our_utf8(&fields) == 0);
    assert!(our_nines(&ascii[..9 * NINES]) == NINES as u64 && our_nines(&nines) == NINES as u64);
    agree_on_damage(&ascii);
    agree_on_damage(&lyrics);
    agree_on_damage(&mixed);
    compare("UTF-8 check, 1 MiB of ASCII", &ascii, our_utf8, rust_utf8);
    compare("UTF-8 check, 1 MiB of lyrics", &lyrics, our_utf8, rust_utf8);
    compare("UTF-8 check, 1 MiB of mixed text", &mixed, our_utf8, rust_utf8);
    compare("UTF-8 check, 100,000 texts of 9 bytes of ASCII", &ascii[..9 * NINES], our_nines, rust_nines);
    compare("UTF-8 check, 100,000 texts of 9 bytes, mixed", &nines, our_nines, rust_nines);
    compare("100,000 pairs of u32 and u64 read", &fields, our_fields, rust_fields);
}
