//! "Lines of text, each closed by byte 10, fields parted by one tab."
use super::charge::Rule;
use super::text::{good_topic, LOG, PANIC};
use std::collections::HashSet;
use std::iter::Peekable;

#[derive(Clone, Copy, Debug, PartialEq, Eq, Hash)]
pub enum Way {
    In,
    Out,
}

#[derive(Debug)]
pub struct Manifest {
    pub modules: u64,
    pub charge: Rule,
    grants: HashSet<(u64, Way, Vec<u8>)>,
}

impl Manifest {
    /// The manifest that these bytes are, or nothing where they are a bad one.
    pub fn parse(bytes: &[u8]) -> Option<Manifest> {
        if bytes.len() > 65_536 {
            return None;
        }
        let body = bytes.strip_suffix(b"\n")?;
        let mut lines = body.split(|b| *b == b'\n').peekable();
        let modules = first_line(lines.next()?)?;
        // "1 (also when absent)"
        let charge = optional_line(&mut lines, b"charge", Rule::One, charge_named)?;
        let rest: Vec<&[u8]> = lines.collect();
        // "Then 0 to 64 lines"; repeats count (79)
        if rest.len() > 64 {
            return None;
        }
        let grants = rest.iter().map(|line| grant_line(line, modules)).collect::<Option<_>>()?;
        Some(Manifest { modules, charge, grants })
    }

    /// "A grant is for exactly one topic." "Every module has `out` on the two topics .."
    pub fn grants(&self, module: u64, way: Way, topic: &[u8]) -> bool {
        let core = way == Way::Out && (topic == LOG || topic == PANIC);
        core || self.grants.contains(&(module, way, topic.to_vec()))
    }
}

fn fields(line: &[u8]) -> Vec<&[u8]> {
    line.split(|b| *b == b'\t').collect()
}

/// "Line one: `modules`, then 1 to 16."
fn first_line(line: &[u8]) -> Option<u64> {
    match fields(line)[..] {
        [b"modules", count] => number(count).filter(|n| (1..=16).contains(n)),
        _ => None,
    }
}

/// What the next line names, if it begins with this word; nothing where it is bad. Any other line is left to who reads on.
fn optional_line<'a, T>(
    lines: &mut Peekable<impl Iterator<Item = &'a [u8]>>,
    word: &[u8],
    absent: T,
    named: fn(&[&[u8]]) -> Option<T>,
) -> Option<T> {
    match lines.next_if(|line| fields(line)[0] == word) {
        Some(line) => named(&fields(line)[1..]),
        None => Some(absent),
    }
}

/// "names 1 .. or 2": one field more, and just this number. "A bad line is a bad manifest."
fn charge_named(fields: &[&[u8]]) -> Option<Rule> {
    match fields {
        [b"1"] => Some(Rule::One),
        [b"2"] => Some(Rule::Two),
        _ => None,
    }
}

/// "`grant`, module number, `in` or `out`, topic"
fn grant_line(line: &[u8], modules: u64) -> Option<(u64, Way, Vec<u8>)> {
    let (module, way, topic) = match fields(line)[..] {
        [b"grant", module, b"in", topic] => (module, Way::In, topic),
        [b"grant", module, b"out", topic] => (module, Way::Out, topic),
        _ => return None,
    };
    let module = number(module).filter(|n| (1..=modules).contains(n))?;
    good_topic(topic).then(|| (module, way, topic.to_vec()))
}

/// "Numbers are decimal without leading zeros"
fn number(s: &[u8]) -> Option<u64> {
    let digits = !s.is_empty() && s.iter().all(u8::is_ascii_digit);
    if !digits || (s.len() > 1 && s[0] == b'0') {
        return None;
    }
    std::str::from_utf8(s).ok()?.parse().ok()
}

#[cfg(test)]
mod tests {
    use super::*;

    const ONE: &str = "modules\t2\n";
    const GRANT: &str = "grant\t2\tin\tloop/take\n";

    fn rule(text: &str) -> Option<Rule> {
        Manifest::parse(text.as_bytes()).map(|manifest| manifest.charge)
    }

    #[test]
    fn the_second_line_may_name_the_charge() {
        for rest in ["", GRANT] {
            assert_eq!(rule(&format!("{ONE}{rest}")), Some(Rule::One));
            assert_eq!(rule(&format!("{ONE}charge\t1\n{rest}")), Some(Rule::One));
            assert_eq!(rule(&format!("{ONE}charge\t2\n{rest}")), Some(Rule::Two));
        }
    }

    #[test]
    fn a_charge_of_another_form_is_bad() {
        let numbers =
            ["", "0", "3", "10", "01", "12", "+1", "-1", "1.", "1 ", " 1", "1\r", "\u{661}", "18446744073709551617"];
        let forms = [
            "charge",
            "charge 1",
            "charge\t1\t",
            "charge\t1\t1",
            "charge\t\t1",
            "Charge\t1",
            " charge\t1",
            "charges\t1",
        ];
        for line in numbers.map(|n| format!("charge\t{n}")).into_iter().chain(forms.map(String::from)) {
            for rest in ["", GRANT] {
                assert_eq!(rule(&format!("{ONE}{line}\n{rest}")), None, "{line:?}");
            }
        }
        assert_eq!(rule("modules\t2\ncharge\t1"), None);
    }

    #[test]
    fn a_charge_in_another_place_is_bad() {
        for line in ["charge\t1\n", "charge\t2\n"] {
            for text in [
                line.to_string(),
                format!("{line}{ONE}"),
                format!("{ONE}{line}{line}"),
                format!("{ONE}\n{line}"),
                format!("{ONE}{GRANT}{line}"),
                format!("{ONE}{GRANT}{line}{GRANT}"),
                format!("{ONE}{line}{GRANT}{line}"),
            ] {
                assert_eq!(rule(&text), None, "{text:?}");
            }
        }
    }

    #[test]
    fn a_charge_is_no_grant() {
        for line in ["", "charge\t1\n", "charge\t2\n"] {
            assert!(rule(&format!("{ONE}{line}{}", GRANT.repeat(64))).is_some());
            assert!(rule(&format!("{ONE}{line}{}", GRANT.repeat(65))).is_none());
        }
    }
}
