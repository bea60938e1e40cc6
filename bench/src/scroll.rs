//! Scrolling (02, A10): a whole listing in pages of 2,048 bytes, from the open to the 0, over a card of 100,000 records of 136 bytes. Ours goes through the
//! C library as a box would call it, a state in and a state out for each page. Beside it go two plain programs with the same index: `plain` makes the
//! checks that the host makes, `bare` reads lengths and copies.
use crate::bare::Bare;
use crate::buffers::{card, put, weave_args};
use crate::clock::{race, Times};
use crate::plain::Plain;
use loafheron::lent::{Buffers, Caller, Linked};
use loafheron::raw;
use std::cell::RefCell;

const RECORDS: u64 = 100_000;
const SIZE: u64 = 136;
const PAGE: u64 = 2_048;
/// one record in so many has the other topic
const RARE: u64 = 1_000;
const MANIFEST: &[u8] = b"modules\t1\ngrant\t1\tin\triff/a\ngrant\t1\tin\triff/b\n";
/// where a memory has the arguments of an open and of a next, and the filter's bytes
const OPEN: usize = 64;
const NEXT: usize = 128;
const FILTER: usize = 512;

struct Listing {
    name: &'static str,
    filter: &'static [u8],
    desc: u64,
    /// how many records it has
    listed: u64,
}

const LISTINGS: [Listing; 4] = [
    Listing { name: "downward", filter: b"riff/", desc: 1, listed: RECORDS },
    Listing { name: "upward", filter: b"riff/", desc: 0, listed: RECORDS },
    Listing { name: "downward, one in 1,000", filter: b"riff/b", desc: 1, listed: RECORDS / RARE },
    Listing { name: "upward, one in 1,000", filter: b"riff/b", desc: 0, listed: RECORDS / RARE },
];

/// The three sides, each with its weave begun.
struct Sides {
    b: Buffers,
    ours: raw::State,
    plain: Plain,
}

fn sides() -> Sides {
    let mut bytes = card(RECORDS, |id| if id % RARE == 0 { b"riff/b" } else { b"riff/a" });
    let used = bytes.len();
    bytes.resize(16_777_216, 0);
    let mut b = Buffers::new(vec![0; 65_536], bytes, MANIFEST.to_vec());
    let mut plain = Plain::mount(&mut b, used).unwrap();
    plain.begin(&mut b, &weave_args(u64::MAX)).unwrap();
    let mounted = Linked.mount(&mut b, used as u64).state;
    let begun = Linked.begin(mounted, &mut b, &weave_args(u64::MAX));
    assert_eq!(begun.code, 0);
    Sides { b, ours: begun.state, plain }
}

fn memory(l: &Listing) -> Vec<u8> {
    let mut memory = vec![0; 65_536];
    memory[FILTER..FILTER + l.filter.len()].copy_from_slice(l.filter);
    put(&mut memory, OPEN, &[FILTER as u64, l.filter.len() as u64, 0, u64::MAX, u64::MAX, l.desc]);
    put(&mut memory, NEXT, &[1, 1_024, PAGE]);
    memory
}

/// One side's listing: the open, and then a page with each call, until one has 0 bytes.
fn ours<'a>(s: &'a Sides, m: &[u8]) -> impl FnMut(&mut [u8]) -> u64 + 'a {
    let opened = Linked.open(s.ours, m, &s.b, OPEN as u64);
    assert_eq!((opened.code, opened.value), (0, 1));
    let mut state = opened.state;
    move |m| {
        let a = Linked.next(state, m, &s.b, NEXT as u64);
        assert_eq!(a.code, 0);
        state = a.state;
        a.value
    }
}

fn plain<'a>(s: &'a Sides, m: &[u8]) -> impl FnMut(&mut [u8]) -> u64 + 'a {
    let mut side = s.plain;
    assert_eq!(side.open(m, &s.b, OPEN as u64), Ok(1));
    move |m| side.next(m, &s.b, NEXT as u64).unwrap()
}

fn bare<'a>(s: &'a Sides, m: &[u8]) -> impl FnMut(&mut [u8]) -> u64 + 'a {
    let mut side = Bare::open(m, OPEN, s.plain.next);
    move |m| side.next(m, &s.b, NEXT)
}

/// Every page of the listing is the same on all sides, byte for byte, and all that is listed is there.
fn agree(s: &Sides, l: &Listing) {
    let mut memories = [memory(l), memory(l), memory(l)];
    let m = &memories[0];
    let (mut ours, mut plain, mut bare) = (ours(s, m), plain(s, m), bare(s, m));
    let mut bytes = 0;
    loop {
        let [a, b, c] = &mut memories;
        let (n, p, q) = (ours(a), plain(b), bare(c));
        assert!(n == p && n == q && a == b && a == c, "a page of {}", l.name);
        bytes += n;
        if n == 0 {
            break;
        }
    }
    assert_eq!(bytes, SIZE * l.listed, "{}", l.name);
}

/// All pages of a listing that is opened with these arguments, and how many bytes they had.
fn whole<N: FnMut(&mut [u8]) -> u64>(open: impl Fn(&[u8]) -> N, m: &RefCell<Vec<u8>>) -> u64 {
    let m = &mut *m.borrow_mut();
    let mut next = open(m);
    let mut bytes = 0;
    loop {
        match next(m) {
            0 => return bytes,
            n => bytes += n,
        }
    }
}

fn row(l: &Listing, [ours, plain, bare]: [Times; 3]) {
    // what a record costs beyond the bare copy, in nanoseconds
    let price = |t: &Times| (t.best - bare.best) * 1_000.0 / RECORDS as f64;
    println!(
        "| {} | {:.2} | {:.2} | {:.2} | {:.2} | {:.2} | {:.2} | {:.2} | {:.2} | {:.0} | {:.0} |",
        l.name,
        ours.best / 1_000.0,
        plain.best / 1_000.0,
        bare.best / 1_000.0,
        ours.best / plain.best,
        ours.best / bare.best,
        ours.median / 1_000.0,
        plain.median / 1_000.0,
        bare.median / 1_000.0,
        price(&ours),
        price(&plain)
    );
}

pub fn rows() {
    println!("| a whole listing | ours, ms | checking, ms | bare, ms | ours / checking | ours / bare | ours, median | checking, median | bare, median | ours: checks, ns a record | checking: checks, ns a record |");
    println!("|---|---|---|---|---|---|---|---|---|---|---|");
    let s = sides();
    for l in &LISTINGS {
        agree(&s, l);
        let m = RefCell::new(memory(l));
        row(
            l,
            race(
                l.name,
                1,
                [&mut || whole(|m| ours(&s, m), &m), &mut || whole(|m| plain(&s, m), &m), &mut || {
                    whole(|m| bare(&s, m), &m)
                }],
            ),
        );
    }
}
