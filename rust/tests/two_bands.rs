//! Two bands share a box (02, A14): what a module is not granted makes no difference to its turn.
use loafheron::differ::bands::{lives, APART};
use loafheron::differ::{Tally, Way};

/// A run in which one of these did not come up says nothing about it.
const WANTED: [(&str, &[&str]); 9] = [
    ("cards", &["differ", "one of many hidden takes differs", "all hidden takes differ"]),
    ("cards", &["hidden takes cut elsewhere", "granted takes moved", "no take granted", "first take granted"]),
    // each has its own table, and it fits
    ("tables", &["differ"]),
    ("write", &["0", "-1", "-5", "-6", "-7"]),
    ("read", &["0", "above 0", "-1", "-4", "-5", "-6"]),
    ("tl_open", &["above 0", "-4", "-5", "-6"]),
    (
        "tl_next",
        &["0", "above 0", "-2", "-4", "-5", "-6", "upward", "downward", "over hidden takes", "cut by its limit"],
    ),
    ("tl_close", &["0", "-2", "-5", "-6"]),
    ("return", &["committed", "running", "discarded -4", "discarded -5", "discarded -6"]),
];

fn count(tally: &Tally, name: &'static str, word: &str) -> u64 {
    tally.get(&(name, word.to_string())).copied().unwrap_or(0)
}

#[test]
fn what_is_not_granted_makes_no_difference() {
    let mut tally = Tally::new();
    for (life, end) in lives(Way::Here, 1..401, false) {
        for (answer, n) in end.unwrap_or_else(|why| panic!("life {life} came apart:\n  {}", why.0)) {
            *tally.entry(answer).or_insert(0) += n;
        }
    }
    for (name, words) in WANTED {
        for word in words {
            let n = count(&tally, name, word);
            assert!(5 <= n, "{name}: {word}: {n} times");
        }
    }
    assert!(20_000 <= count(&tally, "turn", "calls"), "too few calls");
    assert_eq!(count(&tally, "cards", "off key"), 0, "the cards differ in what is granted");
}

/// The control: where a byte differs that is granted, each life that lists all takes comes apart.
#[test]
fn what_is_granted_makes_a_difference() {
    let mut apart = 0;
    for (life, end) in lives(Way::Here, 1..151, true) {
        match end {
            Ok(tally) if count(&tally, "cards", "off key") == 0 || count(&tally, "tl_next", "all listed") == 0 => {}
            Err(why) if why.0.starts_with(APART) => apart += 1,
            Ok(_) => panic!("life {life} listed another byte and went on"),
            Err(why) => panic!("life {life} came apart for another reason:\n  {}", why.0),
        }
    }
    assert!(50 <= apart, "only {apart} lives came apart");
}
