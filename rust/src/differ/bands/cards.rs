//! The other card: the same takes where the module is granted them, others where it is not.
use crate::differ::dice::Dice;
use crate::differ::stock;
use crate::model::event::{Event, Payload};
use crate::model::manifest::{Manifest, Way};

/// P2 of document 01: no record is shorter.
const SHORTEST: usize = 136;

/// What one module is granted.
pub struct Grants {
    pub manifest: Manifest,
    pub module: u64,
}

impl Grants {
    pub fn hide(&self, topic: &[u8]) -> bool {
        !self.manifest.grants(self.module, Way::In, topic)
    }
}

/// A card of as many records and bytes. Of the takes that are not granted one is another, or all are.
pub fn other(d: &mut Dice, card: &[Event], topics: &[Vec<u8>], grants: &Grants) -> Vec<Event> {
    let mut other = card.to_vec();
    let hidden: Vec<usize> = (0..card.len()).filter(|at| grants.hide(&card[*at].topic)).collect();
    for group in groups(d, &hidden) {
        let mut left: usize = group.iter().map(|at| card[*at].total() as usize).sum();
        for (n, at) in group.iter().enumerate() {
            let later = group.len() - n - 1;
            other[*at] = unheard(d, card[*at].id, left - SHORTEST * later, later == 0, topics, grants);
            left -= other[*at].total() as usize;
        }
    }
    other
}

/// Which takes are exchanged together: as a whole they keep their length.
fn groups(d: &mut Dice, hidden: &[usize]) -> Vec<Vec<usize>> {
    match d.below(4) {
        _ if hidden.is_empty() => vec![],
        0 => vec![vec![*d.pick(hidden)]],
        // run by run: the granted takes lie where they lay
        1 => hidden.chunk_by(|a, b| a + 1 == *b).map(<[usize]>::to_vec).collect(),
        // all at once: the granted takes may lie elsewhere
        _ => vec![hidden.to_vec()],
    }
}

/// A take that is not granted, no longer than this, and just as long where it is the last. There is always one: byte 127 alone is a topic
/// that no grant can name.
fn unheard(d: &mut Dice, id: u64, most: usize, last: bool, topics: &[Vec<u8>], grants: &Grants) -> Event {
    loop {
        let mut event = stock::event(d, id, topics);
        let room = most.saturating_sub(128 + event.topic.len().next_multiple_of(8) + d.index(8));
        if let (Payload::Raw(bytes), true) = (&mut event.payload, last) {
            *bytes = d.bytes(room);
        }
        let len = event.total() as usize;
        if grants.hide(&event.topic) && (len == most || len < most && !last) {
            return event;
        }
    }
}

/// For the control: the last of the granted takes that have raw bytes gets another one.
pub fn off_key(card: &mut [Event], grants: &Grants) {
    let granted = card.iter_mut().filter(|event| !grants.hide(&event.topic));
    let bytes = granted.filter_map(|event| match &mut event.payload {
        Payload::Raw(bytes) => bytes.last_mut(),
        Payload::Value(_) => None,
    });
    if let Some(byte) = bytes.last() {
        *byte ^= 1;
    }
}

/// What may be said of the two cards, and whether it holds.
pub fn told(one: &[Event], other: &[Event], grants: &Grants) -> [(bool, &'static str); 8] {
    let (hidden, granted): (Vec<usize>, Vec<usize>) = (0..one.len()).partition(|at| grants.hide(&one[*at].topic));
    let differs = |at: &usize| one[*at] != other[*at];
    let end = |card: &[Event], at: usize| card[..=at].iter().map(Event::total).sum::<u128>();
    let moved = |at: &usize| end(one, *at) != end(other, *at);
    let exchanged = hidden.iter().filter(|at| differs(at)).count();
    [
        (exchanged > 0, "differ"),
        (exchanged == 1 && hidden.len() > 1, "one of many hidden takes differs"),
        (exchanged > 1 && exchanged == hidden.len(), "all hidden takes differ"),
        (hidden.iter().any(moved) && !granted.iter().any(moved), "hidden takes cut elsewhere"),
        (granted.iter().any(moved), "granted takes moved"),
        (granted.is_empty(), "no take granted"),
        (granted.first() == Some(&0) && exchanged > 0, "first take granted"),
        (granted.iter().any(differs), "off key"),
    ]
}
