//! Pages through the safe owner (02, A10). A page of at most 4,352 bytes is copied by what was noted of it when it was found, a longer one is listed once
//! more: both have just the records that look-up shows, one behind the other, as many as fit.
use loafheron::host::{Buffers, Fate, Host};

const MANIFEST: &[u8] =
    b"modules\t1\ngrant\t1\tin\ta\ngrant\t1\tin\tloop/take\ngrant\t1\tout\tloop/take\ngrant\t1\tin\tloop/mix\n";
/// what a memory holds where nothing was written
const BLANK: u8 = 0xEE;
/// the capacities: around 32 of the shortest records, 33 of them, and far more
const CAPS: [usize; 11] = [136, 2_048, 4_344, 4_351, 4_352, 4_353, 4_487, 4_488, 4_489, 8_704, 20_000];

fn boxed() -> Host {
    Host::mount(Buffers::new(vec![0; 65_536], vec![0; 65_536], MANIFEST.to_vec()), 0).ok().unwrap()
}

/// 150 records of 136 bytes, the shortest.
fn short_takes() -> Host {
    let mut host = boxed();
    assert_eq!(host.begin(&[0xFF; 128]), Ok(0));
    for _ in 0..150 {
        assert_eq!(host.ingress(b"a", b""), Ok(0));
    }
    assert!(matches!(host.module_return(0), Fate::Committed { events: 150, .. }));
    host
}

fn put(memory: &mut [u8], at: usize, words: &[u64]) {
    for (n, word) in words.iter().enumerate() {
        memory[at + 8 * n..at + 8 * n + 8].copy_from_slice(&word.to_le_bytes());
    }
}

/// 150 records of several lengths and of four topics, one of which is not granted. Every third is a string that the module writes: its pointer is moved.
fn mixed_takes() -> Host {
    let mut host = boxed();
    for n in 0..150_usize {
        assert_eq!(host.begin(&[0xFF; 128]), Ok(0));
        if n % 3 == 0 {
            let mut memory = vec![0; 512];
            memory[64..73].copy_from_slice(b"loop/take");
            put(&mut memory, 96, &[5, 200, n as u64 % 50, 0]);
            memory[200..250].fill(b'a' + (n % 26) as u8);
            put(&mut memory, 8, &[64, 9, 96, 32, 2]);
            assert_eq!(host.write(&memory, 8), Ok(0));
        } else {
            let topic: &[u8] = [&b"a"[..], b"loop/take", b"loop/mix", b"not/yours"][n % 4];
            assert_eq!(host.ingress(topic, &vec![n as u8; 11 * n % 90]), Ok(0));
        }
        assert!(matches!(host.module_return(0), Fate::Committed { events: 1, .. }));
    }
    host
}

/// What a page at `at` shows of a record: a string's bytes lie behind its cell.
fn shown(record: &[u8], at: usize) -> Vec<u8> {
    let mut shown = record.to_vec();
    if record[4] == 2 {
        let cell = 128 + (record[80] as usize).next_multiple_of(8);
        shown[cell + 8..cell + 16].copy_from_slice(&((at + cell + 32) as u64).to_le_bytes());
    }
    shown
}

/// A whole list, each page of it held against look-up; the memory around it stays as it was. How many pages were long.
fn scroll(host: &mut Host, filter: &[u8], desc: u64, cap: usize) -> usize {
    const OUT: usize = 256;
    let mut memory = vec![BLANK; OUT + cap + 64];
    memory[64..64 + filter.len()].copy_from_slice(filter);
    put(&mut memory, 8, &[64, filter.len() as u64, 0, u64::MAX, u64::MAX, desc]);
    let handle = host.open(&memory, 8).unwrap();
    put(&mut memory, 8, &[handle, OUT as u64, cap as u64]);
    let mut ids: Vec<u64> = (1..=150).collect();
    if desc == 1 {
        ids.reverse();
    }
    let mut left: Vec<Vec<u8>> = ids.iter().map(|id| host.look_up(*id).to_vec()).collect();
    left.retain(|r| {
        let topic = &r[128..128 + r[80] as usize];
        topic.starts_with(filter) && topic != b"not/yours"
    });
    let mut left = left.into_iter().peekable();
    let mut long = 0;
    loop {
        let mut wanted = memory.clone();
        let mut to = OUT;
        while let Some(r) = left.next_if(|r| to + r.len() <= OUT + cap) {
            wanted[to..to + r.len()].copy_from_slice(&shown(&r, to));
            to += r.len();
        }
        if to == OUT && left.peek().is_some() {
            // the next one is longer than a page: it stays so, and the memory too
            assert_eq!(host.next(&mut memory, 8).unwrap_err().code(), -4);
            assert!(memory == wanted);
            return long;
        }
        assert_eq!(host.next(&mut memory, 8), Ok((to - OUT) as u64), "pages of {cap}");
        assert!(memory == wanted, "a page of {} bytes, pages of {cap}", to - OUT);
        if to == OUT {
            return long;
        }
        long += (4_352 < to - OUT) as usize;
    }
}

fn scroll_all(mut host: Host, filters: &[&[u8]]) -> usize {
    let mut long = 0;
    for filter in filters {
        for cap in CAPS {
            assert_eq!(host.begin(&[0xFF; 128]), Ok(0));
            long += scroll(&mut host, filter, 0, cap) + scroll(&mut host, filter, 1, cap);
            assert!(matches!(host.module_return(0), Fate::Committed { events: 0, .. }));
        }
    }
    long
}

#[test]
fn pages_of_the_shortest_records() {
    assert!(20 < scroll_all(short_takes(), &[b""]));
}

#[test]
fn pages_of_records_of_all_kinds() {
    assert!(20 < scroll_all(mixed_takes(), &[b"", b"loop/"]));
}
