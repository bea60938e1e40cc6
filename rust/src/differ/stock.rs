//! What lives are made of: topics, manifests, payloads, cards.
use super::dice::Dice;
use crate::model::event::{Event, Payload};
use crate::model::text::{LOG, PANIC};
use crate::model::value::{Kind, Value};

/// Good topics that are near one another: one is the head of the next, or differs in a byte.
pub fn topics() -> Vec<Vec<u8>> {
    let mut all: Vec<Vec<u8>> = ["loop/take", "loop/take2", "loop/tak", "loop/", "a", "é/ß/漢/𝄞", "\u{80}~ !"]
        .iter()
        .map(|s| s.as_bytes().to_vec())
        .collect();
    all.push(LOG.to_vec());
    all.push(PANIC.to_vec());
    all.push(b"filament/core/panics".to_vec());
    all.push([b"loop/", &[b'x'; 300][..]].concat());
    all.push(vec![b'y'; 2_048]);
    all
}

/// Topics that only a card may hold: byte 127 in front, in the middle, behind more than eight others, beside longer characters.
pub fn old_topics() -> [&'static [u8]; 5] {
    [b"\x7f~ !", b"loop\x7ftake", b"loop/take/\x7f", "é/\u{7f}/𝄞".as_bytes(), b"\x7f"]
}

/// A longer topic with 127, or what is next to it, at one of its first 17 places: 126, 128 alone, the character C2 80.
pub fn edge_topic(d: &mut Dice) -> Vec<u8> {
    let mut topic = b"loop/take/of/verse/2".to_vec();
    let edge = *d.pick(&[&b"\x7e"[..], b"\x7f", b"\x7f", b"\x80", b"\xC2\x80"]);
    let at = d.index(17);
    topic.splice(at..=at, edge.iter().copied());
    topic
}

/// Bytes that are no topic, or just are one.
pub fn odd_topic(d: &mut Dice) -> Vec<u8> {
    let odd: [&[u8]; 12] = [
        b"",
        b"\x1f",
        b"\x20",
        b"a\0b",
        b"\xC0\x80",
        b"\xED\xA0\x80",
        b"\xF4\x90\x80\x80",
        b"\xF4\x8F\xBF\xBF",
        b"\xE2\x82",
        b"a\xFF",
        b"tab\there",
        b"line\n",
    ];
    match d.below(6) {
        0 => vec![b'z'; 2_047 + d.index(4)],
        1 => {
            let n = d.index(20);
            d.bytes(n)
        }
        2 => d.pick(&old_topics()).to_vec(),
        3 => edge_topic(d),
        _ => d.pick(&odd).to_vec(),
    }
}

/// How a manifest may name the charge: not at all, or in its second line.
const CHARGES: [&str; 3] = ["", "charge\t1\n", "charge\t2\n"];

/// Second lines that look as if they named it, and are bad.
const BAD_CHARGES: [&str; 19] = [
    "charge\t0\n",
    "charge\t3\n",
    "charge\t10\n",
    "charge\t12\n",
    "charge\t01\n",
    "charge\t\n",
    "charge\t+1\n",
    "charge\t-1\n",
    "charge\t1 \n",
    "charge\t1\r\n",
    "charge\t18446744073709551617\n",
    "charge\n",
    "charge\t1\t\n",
    "charge\t2\t1\n",
    "charge\t\t1\n",
    "charge 1\n",
    "Charge\t1\n",
    " charge\t2\n",
    "charges\t1\n",
];

/// Who may do what, and what a write costs: a good manifest.
pub fn manifest(d: &mut Dice, modules: u64, topics: &[Vec<u8>]) -> Vec<u8> {
    let mut text = format!("modules\t{modules}\n{}", d.pick(&CHARGES)).into_bytes();
    for _ in 0..d.below(12) {
        text.extend(grant(d, modules, topics));
    }
    // most lives can write, read and list something
    for module in 1..=modules.min(3) {
        for way in ["in", "out"] {
            if !d.one_in(6) {
                text.extend(format!("grant\t{module}\t{way}\tloop/take\n").bytes());
            }
        }
    }
    text
}

pub fn grant(d: &mut Dice, modules: u64, topics: &[Vec<u8>]) -> Vec<u8> {
    let way = *d.pick(&["in", "out"]);
    let head = format!("grant\t{}\t{way}\t", 1 + d.below(modules));
    let topic = d.pick(topics).as_slice();
    [head.as_bytes(), topic, b"\n"].concat()
}

/// Where the number of a good manifest's charge line stands, if it has one.
pub fn charge_at(manifest: &[u8]) -> Option<u64> {
    const HEAD: &[u8] = b"\ncharge\t";
    let at = manifest.windows(HEAD.len()).position(|w| w == HEAD)?;
    Some((at + HEAD.len()) as u64)
}

/// A good manifest made bad by a charge line: of another form, in another place, or by a second one.
pub fn odd_charge(d: &mut Dice, good: &[u8]) -> Vec<u8> {
    let named = |line: &&[u8]| line.starts_with(b"charge\t");
    let mut lines: Vec<&[u8]> = good.split_inclusive(|b| *b == b'\n').filter(|line| !named(line)).collect();
    // so that there is a grant to stand behind
    lines.push(b"grant\t1\tin\ta\n");
    let end = lines.len();
    let places = match d.below(8) {
        0 => vec![0],
        1 => vec![2],
        2 => vec![end],
        3 => vec![1, 2],
        4 => vec![1, end + 1],
        _ => {
            lines.insert(1, d.pick(&BAD_CHARGES).as_bytes());
            vec![]
        }
    };
    for place in places {
        lines.insert(place, d.pick(&CHARGES[1..]).as_bytes());
    }
    lines.concat()
}

/// A manifest with one thing about it that may be wrong.
pub fn odd_manifest(d: &mut Dice, good: &[u8]) -> Vec<u8> {
    let mut text = good.to_vec();
    let at = d.index(text.len());
    match d.below(12) {
        0 => text.truncate(at),
        1 => text[at] = d.byte(),
        2 => text.insert(at, *d.pick(b"\t\n 0 1\r\x1f+~\x7f")),
        3 => drop(text.remove(at)),
        4 => text.extend(b"grant\t17\tin\ta\n"),
        5 => {
            let grants = text.split(|b| *b == b'\n').filter(|line| line.starts_with(b"grant")).count();
            let until = 63 + d.index(3);
            for _ in grants..until {
                text.extend(b"grant\t1\tin\ta\n");
            }
        }
        6 => text.extend(*d.pick(&[
            &b"grant\t1\tin\t\n"[..],
            b"grant\t1\tin\ta",
            b"\n",
            b"grant\t0\tin\ta\n",
            b"grant\t01\tin\ta\n",
            b"grant\t1\tIn\ta\n",
            b"grant\t1\tin\ta\t\n",
        ])),
        7 => {
            text = d
                .pick(&[
                    &b"modules\t0\n"[..],
                    b"modules\t1\n",
                    b"modules\t16\n",
                    b"modules\t17\n",
                    b"modules\t01\n",
                    b"modules\t1",
                    b"",
                    b"\n",
                    b"modules 1\n",
                    b"modules\t\n",
                ])
                .to_vec()
        }
        8 => {
            let topic = if d.one_in(2) { d.pick(&old_topics()).to_vec() } else { edge_topic(d) };
            text.extend([b"grant\t1\tin\t", &topic[..], b"\n"].concat());
        }
        9 | 10 => text = odd_charge(d, good),
        _ => {
            // full to the last byte, or one more
            let topic = vec![b'w'; 1_000];
            while text.len() + 1_020 < 65_536 {
                text.extend([b"grant\t1\tin\t", &topic[..], b"\n"].concat());
            }
            let n = (65_536 + d.index(2)).saturating_sub(text.len() + 12);
            text.extend([b"grant\t1\tin\t", &vec![b'v'; n][..], b"\n"].concat());
        }
    }
    text
}

/// So many bytes of UTF-8: letters in runs of `run`, behind each a character of 2, 3 or 4 bytes in turn, and letters where no more fit.
pub fn lyrics(len: usize, run: usize) -> Vec<u8> {
    let mut text = String::new();
    for note in ["é", "♪", "𝄞"].iter().cycle() {
        if len < text.len() + run + note.len() {
            break;
        }
        text.extend(('a'..='z').cycle().take(run));
        text.push_str(note);
    }
    text.extend(('a'..='z').cycle().take(len - text.len()));
    text.into_bytes()
}

/// A value that a sound record may hold.
pub fn value(d: &mut Dice) -> Value {
    let n = d.index(24);
    let kind = match d.below(7) {
        0 => Kind::Unit,
        1 => Kind::Boolean(d.one_in(2)),
        2 => Kind::Signed(d.edge(0) as i64),
        3 => Kind::Unsigned(d.edge(0)),
        4 => Kind::Float(*d.pick(&[
            0,
            0x7FF8_0000_0000_0000,
            0x7FF0_0000_0000_0000,
            0xFFF0_0000_0000_0000,
            1,
            0x8000_0000_0000_0000,
        ])),
        5 => Kind::Text(lyrics(12 * n, d.index(25))),
        _ => Kind::Bytes(d.bytes(n)),
    };
    Value { flags: d.word() as u32, kind }
}

/// An event that may stand on a card. One in five has a topic that no call may name.
pub fn event(d: &mut Dice, id: u64, topics: &[Vec<u8>]) -> Event {
    let topic = if d.one_in(5) { d.pick(&old_topics()).to_vec() } else { d.pick(topics).clone() };
    let agent = if topic == PANIC { 0 } else { d.below(17) };
    let flags = if agent == 0 { 1 } else { *d.pick(&[1, 2, 9, 10]) };
    let n = d.index(40);
    let payload = if flags & 1 == 1 { Payload::Raw(d.bytes(n)) } else { Payload::Value(value(d)) };
    let trace = d.bytes(25).try_into().unwrap();
    Event { id, flags, time: d.edge(5_000), agent, trace, topic, payload }
}

/// A sound card of so many records, and where each begins.
pub fn card(d: &mut Dice, records: u64, topics: &[Vec<u8>]) -> Vec<u8> {
    (1..=records).flat_map(|id| event(d, id, topics).stored()).collect()
}

/// A table of so many entries, with anything in it: mount does not ask what it held.
pub fn table(d: &mut Dice, entries: u64) -> Vec<u32> {
    (0..entries).map(|_| d.word() as u32).collect()
}

#[cfg(test)]
mod tests {
    use super::*;
    use crate::model::manifest::Manifest;
    use crate::model::text::{card_topic, good_topic};
    use std::collections::HashSet;

    #[test]
    fn each_list_of_topics_is_what_it_says() {
        assert!(topics().iter().all(|t| good_topic(t)));
        assert!(old_topics().iter().all(|t| card_topic(t) && !good_topic(t)));
    }

    #[test]
    fn good_manifests_are_good() {
        let d = &mut Dice::new(1);
        for modules in 1..=16 {
            assert!(Manifest::parse(&manifest(d, modules, &topics())).is_some());
        }
    }

    /// Each bad form behind line one, and a good one in each bad place.
    #[test]
    fn odd_charges_are_bad_and_each_comes_up() {
        let d = &mut Dice::new(1);
        let grant = "grant\t1\tin\ta\n";
        for charge in CHARGES {
            let good = format!("modules\t1\n{charge}{grant}").into_bytes();
            let met: HashSet<Vec<u8>> = (0..2_000).map(|_| odd_charge(d, &good)).collect();
            assert!(met.iter().all(|text| Manifest::parse(text).is_none()));
            // one line at each of 3 places, two at each of 2
            assert_eq!(met.len(), BAD_CHARGES.len() + 3 * 2 + 2 * 4);
        }
    }

    #[test]
    fn the_number_of_a_charge_line_is_found() {
        assert_eq!(charge_at(b"modules\t16\ngrant\t1\tin\tcharge\n"), None);
        assert_eq!(charge_at(b"modules\t16\ncharge\t2\n"), Some(18));
    }

    /// 126, 127, 128 alone and C2 80, each at each of 17 places.
    #[test]
    fn edges_of_the_rule_come_up_at_each_place() {
        let d = &mut Dice::new(1);
        let edge = |t: Vec<u8>| {
            let at = t.iter().position(|b| 126 <= *b).unwrap();
            (at, t[at..].iter().copied().filter(|b| 126 <= *b).collect::<Vec<u8>>())
        };
        let met: HashSet<(usize, Vec<u8>)> = (0..2_000).map(|_| edge(edge_topic(d))).collect();
        for at in 0..=16 {
            for edge in [&[126][..], &[127], &[128], &[0xC2, 0x80]] {
                assert!(met.contains(&(at, edge.to_vec())), "{edge:?} at {at}");
            }
        }
    }
}
