//! The ordinary differential run. `tests/differ --calls N` makes longer ones.
use loafheron::differ::{self, Way};

const CALLS: u64 = 200_000;

#[test]
fn the_host_and_its_twin_agree() {
    let run = differ::run(Way::Here, 1, CALLS);
    if let Some((life, difference)) = &run.failed {
        panic!("{}", differ::told(*life, difference));
    }
    assert!(CALLS <= run.calls);
    every_answer_came_up(&run);
    both_charges_came_up(&run);
    every_field_came_up(&run);
    every_table_came_up(&run);
}

fn all_said(run: &differ::Run, call: &'static str, answers: &[&str]) {
    for answer in answers {
        assert!(run.tally.contains_key(&(call, answer.to_string())), "{call} never said {answer}");
    }
}

/// Both charge rules came up, and every operation was refused for the charge line alone.
fn both_charges_came_up(run: &differ::Run) {
    // charged by each rule; by a rule that the weave's last write was not charged by
    all_said(run, "write", &["0, no charge line", "0, charge 1", "0, charge 2", "0, rule changed"]);
    // budgets that tell the rules apart, and rule 2 from one that rounds down
    all_said(run, "write", &["-6, 0 by rule 2", "0, -6 by rule 1", "-6, 0 rounded down"]);
    // the charge line is none of the grants
    all_said(run, "mount", &["0, charge, 64 grants", "-5, charge, 65 grants"]);
    let calls = ["mount", "begin", "ingress", "write", "read", "tl_open", "tl_next", "tl_close", "return", "look-up"];
    for call in calls {
        all_said(run, call, &["refused for charge"]);
    }
}

/// What a -5 of each module call may be for (02, A5), in the order of the checks, by the words of the tally.
const FIELDS: [(&str, &[&str]); 5] = [
    ("write", &["before", "record", "topic", "flags", "data", "len"]),
    ("read", &["before", "record", "topic", "out_ptr"]),
    ("tl_open", &["before", "record", "topic", "desc"]),
    ("tl_next", &["before", "record", "out_ptr"]),
    ("tl_close", &["before", "record"]),
];

/// Each -5 was for each of its fields: for it alone, and with each later one bad too. (Where the record cannot be read it is the last.)
fn every_field_came_up(run: &differ::Run) {
    for (call, fields) in FIELDS {
        for (n, field) in fields.iter().enumerate() {
            all_said(run, call, &[&format!("-5, {field}"), &format!("-5, {field} alone")]);
            for later in &fields[n + 1..] {
                if *field != "record" {
                    all_said(run, call, &[&format!("-5, {field}, then {later}")]);
                }
            }
        }
        all_said(run, call, &["0, no field", "-1, no field", "-2, no field", "-6, no field"]);
    }
    all_said(run, "write", &["-5, inside a value", "-4, no field", "-7, no field"]);
    all_said(run, "read", &["-3, no field", "-4, no field"]);
    all_said(run, "tl_open", &["-4, no field"]);
    all_said(run, "tl_next", &["-3, no field", "-4, no field"]);
    // of the twin itself: another code has no field
    let other = run.tally.keys().find(|(_, answer)| answer.contains("the field"));
    assert_eq!(other, None, "a field beside another code than -5");
}

/// What a wrong number is looked at for, in the words of the tally: no entry, an offset outside, another's record, no sound record.
const CAUSES: [&str; 4] = ["no entry", "outside", "another", "no record"];

/// Tables that fit, that are too short, that have another length, that are wrong where it is looked at and where it is not (02, A9).
fn every_table_came_up(run: &differ::Run) {
    all_said(run, "mount", &["0, table full", "0, entries over", "-5, table short", "-5, one entry short"]);
    all_said(run, "mount", &["-3, table short too"]);
    all_said(run, "return", &["committed, table full", "committed, entries over", "-4, one entry short"]);
    all_said(
        run,
        "return",
        &["-4, table short", "-4, short, none staged", "-4, card and table short", "-4, card short"],
    );
    all_said(run, "return", &["-3, table short too", "refused for the table", "-5 before -2, table"]);
    for cause in CAUSES {
        all_said(run, "tl_next", &[&format!("-3, {cause}")]);
        all_said(run, "look-up", &[&format!("nowhere, {cause}")]);
    }
    all_said(run, "look-up", &["as the walk says", "not by a walk", "a fault elsewhere", "refused for the table"]);
    for way in ["upward", "downward"] {
        // looked at: at once, and behind records that would have been handed over
        all_said(run, "tl_next", &[&format!("-3 {way}, first"), &format!("-3 {way}, after some")]);
        // not looked at: behind the page, and outside the window
        all_said(run, "tl_next", &[&format!("{way}, fault behind"), &format!("{way}, fault outside")]);
        all_said(run, "tl_next", &[&format!("{way}, window above"), &format!("{way}, window cut")]);
    }
    all_said(run, "tl_next", &["behind: an entry alone", "behind: a record", "-4, fault behind", "-3, no room left"]);
    all_said(run, "tl_next", &["0, no number, a fault", "0, limit 0, a fault", "window below", "no window"]);
    all_said(run, "tl_next", &["-3 before -6", "refused for the table", "-5 before -2, table", "as the walk says"]);
}

/// A run that never saw an answer says nothing about it: each code of each operation came up, and byte 127 wherever a topic stands.
fn every_answer_came_up(run: &differ::Run) {
    let module = ["0", "-1", "-2", "-5", "-6"];
    let wanted = [
        ("mount", &["0", "-3", "-5"][..]),
        ("begin", &["0", "-1", "-2", "-5"]),
        ("ingress", &["0", "-2", "-4", "-5"]),
        ("write", &["0", "-1", "-2", "-4", "-5", "-6", "-7"]),
        ("read", &["0", "above 0", "-1", "-2", "-3", "-4", "-5", "-6"]),
        ("tl_open", &["above 0", "-1", "-2", "-4", "-5", "-6"]),
        ("tl_next", &["0", "above 0", "-1", "-2", "-3", "-4", "-5", "-6"]),
        ("tl_close", &module),
        ("return", &["-2", "-5", "running", "committed", "committed, empty"]),
        ("look-up", &["nowhere", "on the card", "in staging"]),
        // refused for it alone: a grant, a topic, a filter
        ("mount", &["-5 for byte 127"]),
        ("ingress", &["-5 for byte 127"]),
        ("write", &["-5 for byte 127"]),
        ("read", &["-5 for byte 127"]),
        ("tl_open", &["-5 for byte 127"]),
        // met in a record, which it leaves sound
        ("mount", &["0, 127 on the card"]),
        ("look-up", &["127 on the card", "127 in staging"]),
        // in a list but for the grant
        ("tl_next", &["127 in the way"]),
    ];
    for (call, answers) in wanted {
        all_said(run, call, answers);
    }
    for code in -7..=-1 {
        assert!(run.tally.contains_key(&("return", format!("discarded {code}"))), "no weave was discarded with {code}");
    }
}
