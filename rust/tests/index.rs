//! The index through the safe owner (02, A9): tables that are made, lent, too short and full; lists and look-ups from anywhere on the card.
use loafheron::host::{Buffers, Fate, Host};

const MANIFEST: &[u8] = b"modules\t1\ngrant\t1\tin\tloop/take\n";

/// What an entry holds that nobody has set.
const JUNK: u32 = 0xABCD_EF01;

/// A card of so many bytes, and a table of so many entries that is lent.
fn lent(card: usize, entries: usize) -> Buffers {
    Buffers { index: vec![JUNK; entries], ..Buffers::new(vec![0; 65_536], vec![0; card], MANIFEST.to_vec()) }
}

/// A weave with takes of these lengths, and its outcome. Take n says its number over and over.
fn record(host: &mut Host, takes: &[usize]) -> Fate {
    assert_eq!(host.begin(&[0xFF; 128]), Ok(0));
    let next = host.state().next;
    for (n, len) in takes.iter().enumerate() {
        assert_eq!(host.ingress(b"loop/take", &vec![(next as usize + n) as u8; *len]), Ok(0));
    }
    host.module_return(0)
}

/// A box with so many takes, of 0 to 40 bytes: records of 144 to 184.
fn recorded(takes: usize) -> Host {
    let mut host = Host::mount(lent(65_536, 400), 0).ok().unwrap();
    let lens: Vec<usize> = (1..=takes).map(|n| 7 * n % 41).collect();
    for weave in lens.chunks(7) {
        assert!(matches!(record(&mut host, weave), Fate::Committed { .. }));
    }
    host
}

/// The bytes that a record of a take of this length has.
fn total(len: usize) -> u32 {
    128 + 16 + len.next_multiple_of(8) as u32
}

/// The takes of a list, page by page: its window, its way, and how large a page is.
fn listed(host: &mut Host, from: u64, to: u64, desc: u64, cap: u64) -> Vec<u64> {
    let mut memory = vec![0; 4_096];
    let put = |memory: &mut [u8], words: &[u64]| {
        for (n, word) in words.iter().enumerate() {
            memory[8 + 8 * n..16 + 8 * n].copy_from_slice(&word.to_le_bytes());
        }
    };
    put(&mut memory, &[8, 0, from, to, u64::MAX, desc]);
    let handle = host.open(&memory, 8).unwrap();
    let mut ids = Vec::new();
    loop {
        put(&mut memory, &[handle, 64, cap]);
        let bytes = host.next(&mut memory, 8).unwrap() as usize;
        let mut page = &memory[64..64 + bytes];
        if page.is_empty() {
            put(&mut memory, &[handle]);
            assert_eq!(host.close(&memory, 8), Ok(0));
            return ids;
        }
        while !page.is_empty() {
            ids.push(u64::from_le_bytes(page[8..16].try_into().unwrap()));
            page = &page[u32::from_le_bytes(page[..4].try_into().unwrap()) as usize..];
        }
    }
}

#[test]
fn each_entry_is_the_offset_of_its_record_and_a_mount_makes_them_anew() {
    let host = recorded(100);
    let (mut buffers, used) = host.into_buffers();
    let mut at = 0;
    for n in 1..=100 {
        assert_eq!(buffers.index[n - 1], at, "the record with the number {n}");
        at += total(7 * n % 41);
    }
    assert_eq!((at as u64, &buffers.index[100..]), (used, &[JUNK; 300][..]));
    let made = buffers.index[..100].to_vec();
    buffers.index = vec![1; 100];
    let (again, _) = Host::mount(buffers, used).ok().unwrap().into_buffers();
    assert_eq!(again.index, made);
}

/// Every window of a card of 60 takes has just its numbers, both ways, in small pages and large ones.
#[test]
fn a_list_from_anywhere_has_its_numbers() {
    let mut host = recorded(60);
    assert_eq!(host.begin(&[0xFF; 128]), Ok(0));
    for (from, to) in [(0, 99), (1, 61), (30, 99), (0, 31), (29, 33), (60, 61), (59, 60), (61, 99), (0, 1), (9, 9)] {
        let numbers: Vec<u64> = (from.max(1)..to.min(61)).collect();
        let back: Vec<u64> = numbers.iter().rev().copied().collect();
        for cap in [184, 400, 2_048] {
            assert_eq!(listed(&mut host, from, to, 0, cap), numbers, "{from} to {to} upward, pages of {cap}");
            assert_eq!(listed(&mut host, from, to, 1, cap), back, "{from} to {to} downward, pages of {cap}");
        }
    }
    for id in 1..=60 {
        assert_eq!(host.look_up(id)[8], id as u8);
    }
    assert!(host.look_up(0).is_empty() && host.look_up(61).is_empty());
}

#[test]
fn a_table_that_is_too_short_is_refused_and_handed_back() {
    let (good, used) = recorded(5).into_buffers();
    for entries in 0..5 {
        let refused = Host::mount(Buffers { index: vec![JUNK; entries], ..good.clone() }, used).err().unwrap();
        assert_eq!((refused.code, refused.at), (-5, 0));
        assert_eq!(refused.buffers.index, vec![JUNK; entries]);
    }
    assert!(Host::mount(Buffers { index: vec![JUNK; 5], ..good }, used).is_ok());
}

/// What does not fit is discarded, and the box goes on: what is there can be had, and what fits is taken.
#[test]
fn a_full_table_is_like_a_full_card() {
    let mut host = Host::mount(lent(65_536, 3), 0).ok().unwrap();
    assert_eq!(record(&mut host, &[8, 8]), Fate::Committed { events: 2, bytes: 304 });
    assert_eq!(record(&mut host, &[8, 8]), Fate::Discarded(-4));
    assert_eq!((host.state().next, host.state().used), (3, 304));
    assert_eq!(record(&mut host, &[8]), Fate::Committed { events: 1, bytes: 152 });
    assert_eq!(record(&mut host, &[8]), Fate::Discarded(-4));
    assert_eq!(record(&mut host, &[]), Fate::Committed { events: 0, bytes: 0 });
    assert_eq!(host.look_up(3)[144..152], [3; 8]);
    let (buffers, used) = host.into_buffers();
    assert_eq!((&buffers.index[..], used), (&[0, 152, 304][..], 456));
}

/// As many of the shortest records as a card can hold: a made table has just the entries for them.
#[test]
fn a_made_table_never_runs_out() {
    for card in [0, 135, 136, 1_000, 1_088] {
        let buffers = Buffers::new(vec![0; 65_536], vec![0; card], MANIFEST.to_vec());
        let mut host = Host::mount(buffers, 0).ok().unwrap();
        let mut takes = 0;
        loop {
            assert_eq!(host.begin(&[0xFF; 128]), Ok(0));
            assert_eq!(host.ingress(b"a", b""), Ok(0));
            match host.module_return(0) {
                Fate::Committed { .. } => takes += 1,
                fate => break assert_eq!(fate, Fate::Discarded(-4)),
            }
        }
        assert_eq!(takes, card / 136, "a card of {card} bytes");
        assert_eq!(host.into_buffers().0.index.len(), takes);
    }
}
