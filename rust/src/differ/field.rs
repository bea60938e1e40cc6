//! Whether the calls of a run come to each field that a -5 may be for (02, A5): each alone, and each before another that is bad too.
use super::twin::{Call, Said};
use crate::lent::{Field, ModuleCall};
use crate::model::bytes::{aligned_span, span, u64_at};
use crate::model::checks::Checks;
use crate::model::{Lent, State, BAD};

/// What a module call's answer has to do with fields. `state` and `lent` are as the model leaves them; a -5 leaves them as they were.
pub fn met(call: &Call, said: &Said, state: &State, lent: &Lent) -> Vec<String> {
    let (Some((module, at)), Said::Answer { code, field, .. }) = (call.module(), said) else { return vec![] };
    match (*code, *field) {
        (BAD, field) => refused(module, at, module.field(field), state, lent),
        (code, 0) => vec![format!("{code}, no field")],
        (code, field) => vec![format!("{code}, the field {field}")],
    }
}

/// For which field, and which others are bad too.
fn refused(module: ModuleCall, at: u64, field: Field, state: &State, lent: &Lent) -> Vec<String> {
    let mut met = vec![format!("-5, {}", word(field))];
    if field == Field::Data && inside_a_value(at, lent) {
        met.push("-5, inside a value".into());
    }
    let mut others = others(module, at, field, state, lent);
    others.dedup();
    if others.is_empty() {
        met.push(format!("-5, {} alone", word(field)));
    }
    met.extend(others.into_iter().map(|other| format!("-5, {}, then {}", word(field), word(other))));
    met
}

/// The other fields that fail a check, in the order of the checks.
fn others(module: ModuleCall, at: u64, field: Field, state: &State, lent: &Lent) -> Vec<Field> {
    let faults = checks(module, at, state, lent).faults;
    let bad = faults.iter().filter(|fault| fault.code == BAD).map(|fault| module.field(fault.field));
    bad.filter(|other| *other != field).collect()
}

fn checks(module: ModuleCall, at: u64, state: &State, lent: &Lent) -> Checks {
    match module {
        ModuleCall::Write => state.write_checks(lent, at),
        ModuleCall::Read => state.read_checks(lent, at),
        ModuleCall::Open => state.open_checks(lent, at),
        ModuleCall::Next => state.next_checks(lent, at),
        ModuleCall::Close => state.close_checks(lent, at),
    }
}

/// Of a write whose value itself lies where it may: what does not is a span that it has inside.
fn inside_a_value(at: u64, lent: &Lent) -> bool {
    let Some(args) = span(&lent.memory, at, 40) else { return false };
    args[32] & 2 != 0 && u64_at(args, 24) == 32 && aligned_span(&lent.memory, u64_at(args, 16), 32).is_some()
}

/// One word for each, so that a line of the tally stays short.
fn word(field: Field) -> String {
    match field {
        Field::Before => "before".into(),
        Field::Record => "record".into(),
        field => field.to_string(),
    }
}
