//! Topics, filters, and the topics that have a meaning of their own.
//!
//! Two rules: what a call or a grant may name, and what a record may hold. 02, A2: "127 is one and document 01 forgot it. Topics, filters
//! and manifests now refuse it with -5, in the place where 0 to 31 are. Cards that already hold such a topic still mount".

pub const LOG: &[u8] = b"filament/core/log";
pub const PANIC: &[u8] = b"filament/core/panic";

/// 02: "non-printable ASCII control characters; 127 is one". The characters behind it, from C2 80 on, are no ASCII.
fn called(c: char) -> bool {
    !c.is_ascii_control()
}

/// 01: "with no byte from 0 to 31". The bytes of a character that has more than one are all above 127.
fn kept(c: char) -> bool {
    c >= ' '
}

/// "is UTF-8", of characters that may stand there
fn clean(s: &[u8], may_stand: fn(char) -> bool) -> bool {
    match std::str::from_utf8(s) {
        Ok(text) => text.chars().all(may_stand),
        Err(_) => false,
    }
}

/// "Topic 1 to 2,048 bytes."
fn sized(s: &[u8]) -> bool {
    (1..=2_048).contains(&s.len())
}

/// A topic of a call, or of a grant.
pub fn good_topic(s: &[u8]) -> bool {
    sized(s) && clean(s, called)
}

/// A topic of a sound record, by the rule that 01 had when cards were written.
pub fn card_topic(s: &[u8]) -> bool {
    sized(s) && clean(s, kept)
}

/// "cursor filter 0 to 64 bytes"
pub fn good_filter(s: &[u8]) -> bool {
    s.len() <= 64 && clean(s, called)
}

#[cfg(test)]
mod tests {
    use super::*;

    /// Said anew, without characters: which bytes are good in calls and grants, and on a card.
    #[test]
    fn each_byte_alone_and_behind_others() {
        for b in 0..=255 {
            let (called, kept) = ((32..=126).contains(&b), (32..=127).contains(&b));
            for text in [vec![b], [b"loop/take/", &[b][..]].concat(), [&[b][..], b"/loop/take"].concat()] {
                assert_eq!((good_topic(&text), card_topic(&text)), (called, kept), "{text:?}");
                assert_eq!(good_filter(&text), called, "{text:?}");
            }
        }
    }

    #[test]
    fn characters_above_127_are_good() {
        for c in ["\u{80}", "\u{9f}", "\u{a0}", "\u{7ff}", "\u{ffff}", "\u{10ffff}"] {
            assert!(good_topic(c.as_bytes()) && card_topic(c.as_bytes()) && good_filter(c.as_bytes()), "{c:?}");
            let with_127 = format!("{c}\u{7f}");
            assert!(!good_topic(with_127.as_bytes()) && !good_filter(with_127.as_bytes()), "{c:?}");
            assert!(card_topic(with_127.as_bytes()), "{c:?}");
        }
        // 127 is no second byte of a character
        assert!(!card_topic(b"\xC2\x7F"));
    }

    #[test]
    fn sizes() {
        assert!(!good_topic(b"") && !card_topic(b"") && good_filter(b""));
        assert!(good_topic(&[b'y'; 2_048]) && card_topic(&[b'y'; 2_048]) && good_filter(&[b'y'; 64]));
        assert!(!good_topic(&[b'y'; 2_049]) && !card_topic(&[b'y'; 2_049]) && !good_filter(&[b'y'; 65]));
    }
}
