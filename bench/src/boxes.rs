//! The whole host, by the archive of the crate `loafheron`, against the same operations in plain Rust.
use crate::buffers::{card, put, weave_args};
use crate::clock::{row, row_of};
use crate::plain::Plain;
use loafheron::lent::{Buffers, Caller, Linked};
use loafheron::raw;
use std::cell::RefCell;

const RECORDS: u64 = 100_000;
const SIZE: usize = 136;
const PAGE: u64 = 2_048;
/// calls that are timed together, of those that take a few microseconds
const MANY: u32 = 1_000;
const MANIFEST: &[u8] = b"modules\t1\ngrant\t1\tout\ta\ngrant\t1\tin\ta\n";

fn buffers() -> Buffers {
    let mut card = card(RECORDS, |_| b"a");
    card.resize(16_777_216, 0);
    Buffers::new(vec![0; 65_536], card, MANIFEST.to_vec())
}

/// A call of the archive: its state is kept, its answer handed out.
fn settle(state: &mut raw::State, a: raw::Answer) -> u64 {
    assert_eq!(a.code, 0);
    *state = a.state;
    a.value
}

/// A memory with the arguments of ten writes at 8, an open at 64 and a next at 128. Texts: the topic at 512, a payload at 520.
fn memory() -> Vec<u8> {
    let mut memory = vec![0; 65_536];
    memory[512] = b'a';
    memory[520..552].fill(b'v');
    put(&mut memory, 8, &[512, 1, 520, 32, 1]);
    put(&mut memory, 64, &[512, 0, 0, u64::MAX, u64::MAX, 0]);
    put(&mut memory, 128, &[1, 1_024, PAGE]);
    memory
}

pub fn rows() {
    // both sides go over the same buffers: what one leaves, the other finds
    let mut b = buffers();
    let mut m = memory();
    let (fresh, plain) = mount(&mut b);
    row_of("look-up of the last of them", MANY, &mut || Linked.look_up(fresh, &b, RECORDS).at, &mut || {
        plain.look_up(&b, RECORDS).as_ptr() as u64 - b.card.as_ptr() as u64
    });
    for list in LISTS {
        next(&mut b, &mut m, fresh, plain, &list);
    }
    weave(&mut b, &m, fresh, plain);
    long_manifest(&m);
}

/// Both sides fill the index, and alike.
fn mount(b: &mut Buffers) -> (raw::State, Plain) {
    let used = RECORDS as usize * SIZE;
    let cell = RefCell::new(b);
    row(
        "mount, 100,000 records of 136 bytes",
        &mut || Linked.mount(&mut cell.borrow_mut(), used as u64).state.next,
        &mut || Plain::mount(&mut cell.borrow_mut(), used).unwrap().next,
    );
    let b = cell.into_inner();
    b.index.fill(7);
    let plain = Plain::mount(b, used).unwrap();
    let filled = std::mem::replace(&mut b.index, vec![7; 16_777_216 / SIZE]);
    let fresh = Linked.mount(b, used as u64).state;
    assert_eq!(b.index, filled, "both sides fill the same index");
    (fresh, plain)
}

/// A list, and one page of 2,048 bytes from its head: 15 records, or none where the filter, the letter at 520, passes over every record.
struct List {
    name: &'static str,
    calls: u32,
    filter: u64,
    from: u64,
    to: u64,
    desc: u64,
}

const ALL: List = List { name: "", calls: MANY, filter: 0, from: 0, to: u64::MAX, desc: 0 };

const LISTS: [List; 6] = [
    List { name: "next upward, a page of 2,048 bytes from these", ..ALL },
    List { name: "next downward, a page of 2,048 bytes", desc: 1, ..ALL },
    List { name: "next upward, a page from the middle", from: RECORDS / 2, ..ALL },
    List { name: "next downward, a page from the middle", to: RECORDS / 2, desc: 1, ..ALL },
    List { name: "next upward, nothing matches", filter: 1, calls: 1, ..ALL },
    List { name: "next downward, nothing matches", filter: 1, calls: 1, desc: 1, ..ALL },
];

/// The list is opened on both sides, and each hands over its first page again and again.
fn next(b: &mut Buffers, m: &mut Vec<u8>, fresh: raw::State, plain: Plain, list: &List) {
    put(m, 64, &[520, list.filter, list.from, list.to, u64::MAX, list.desc]);
    let (mut opened, mut theirs) = (fresh, plain);
    let a = Linked.begin(opened, b, &weave_args(u64::MAX));
    settle(&mut opened, a);
    let a = Linked.open(opened, m, b, 64);
    settle(&mut opened, a);
    theirs.begin(b, &weave_args(u64::MAX)).unwrap();
    theirs.open(m, b, 64).unwrap();
    let mut other = m.clone();
    row_of(list.name, list.calls, &mut || settle(&mut opened.clone(), Linked.next(opened, m, b, 128)), &mut || {
        theirs.clone().next(&mut other, b, 128).unwrap()
    });
    assert_eq!(*m, other, "both sides hand over the same page");
}

/// A weave: begin, ten writes of 32 bytes, the last return with its commit.
fn weave(b: &mut Buffers, m: &[u8], fresh: raw::State, plain: Plain) {
    let args = weave_args(u64::MAX);
    let cell = RefCell::new(b);
    row(
        "a weave of ten writes and its commit",
        &mut || {
            let b = &mut *cell.borrow_mut();
            let mut state = fresh;
            let a = Linked.begin(state, b, &args);
            settle(&mut state, a);
            for _ in 0..10 {
                let a = Linked.write(state, m, b, 8);
                settle(&mut state, a);
            }
            Linked.module_return(state, b, 0).outcome.bytes
        },
        &mut || {
            let b = &mut *cell.borrow_mut();
            let mut state = plain;
            state.begin(b, &args).unwrap();
            for _ in 0..10 {
                state.write(m, b, 8).unwrap();
            }
            state.commit(b).unwrap() as u64
        },
    );
}

/// A call that does little else than read the manifest: an open, with 64 grants of topics of 1,000 bytes.
fn long_manifest(m: &[u8]) {
    let grant = [b"grant\t1\tin\t", &[b't'; 1_000][..], b"\n"].concat();
    let manifest = [b"modules\t1\n", &grant.repeat(64)[..]].concat();
    let mut b = Buffers::new(vec![0; 65_536], Vec::new(), manifest);
    let mut m = m.to_vec();
    put(&mut m, 64, &[512, 0, 0, u64::MAX, u64::MAX, 0]);
    let ours = Linked.begin(Linked.mount(&mut b, 0).state, &mut b, &weave_args(u64::MAX)).state;
    let mut theirs = Plain::mount(&mut b, 0).unwrap();
    theirs.begin(&mut b, &weave_args(u64::MAX)).unwrap();
    row(
        "tl_open, with a manifest of 64 grants of 1,000 bytes",
        &mut || settle(&mut ours.clone(), Linked.open(ours, &m, &b, 64)),
        &mut || theirs.clone().open(&m, &b, 64).unwrap(),
    );
}
