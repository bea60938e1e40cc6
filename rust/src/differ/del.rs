//! Whether the calls of a run come to byte 127 (02, A2): what is refused for it alone, and what of a card or of the staged part has it.
use super::twin::{models, Call, Said};
use crate::lent::Place;
use crate::model::bytes::{span, u32_at, u64_at};
use crate::model::chain;
use crate::model::manifest::{Manifest, Way};
use crate::model::{Cursor, Lent, State, BAD};
use std::ops::Range;

const DEL: u8 = 127;

/// The cursor that a next goes on with. It is asked for before the call, which moves it and may put its page over the argument record.
pub fn cursor(call: &Call, state: &State, lent: &Lent) -> Option<Cursor> {
    let Call::Next { at } = call else { return None };
    let args = span(&lent.memory, *at, 24)?;
    let slot = state.slot(u64_at(args, 0)).ok()?;
    Some(state.weave.slots[slot].cursor)
}

/// What a call has to do with byte 127, if anything. `cursor` is as it was before the call, `state` and `lent` are as the model leaves them.
/// A -5 leaves them as they were, all but the state of a refused mount, which is all 0: no matter, as mount reads none.
pub fn met(call: &Call, said: &Said, cursor: Option<Cursor>, state: &State, lent: &Lent) -> Option<&'static str> {
    let (holds, what) = match (call, said) {
        (_, Said::Answer { code: BAD, .. } | Said::Mounted { code: BAD, .. }) => {
            (refused_for_it(call, state, lent), "-5 for byte 127")
        }
        (Call::Mount { .. }, Said::Mounted { code: 0, .. }) => (on_card(state, lent), "0, 127 on the card"),
        (Call::Next { .. }, Said::Answer { code: 0, .. }) => (in_the_way(&cursor?, state, lent), "127 in the way"),
        (_, Said::Place(Place::Card { at, .. })) => (in_record(&lent.card, *at), "127 on the card"),
        (_, Said::Place(Place::Staging { at, .. })) => (in_record(&lent.staging, *at), "127 in staging"),
        _ => return None,
    };
    holds.then_some(what)
}

/// With 126 for every 127 in the topic or filter that it names, or in a mount's manifest, the call is not refused with -5.
fn refused_for_it(call: &Call, state: &State, lent: &Lent) -> bool {
    let Some(named) = named(call, lent).filter(|s| s.contains(&DEL)) else { return false };
    let other: Vec<u8> = named.iter().map(|b| if *b == DEL { 126 } else { *b }).collect();
    // not before it is found, as a card may have 16 MiB
    let (mut call, mut state, mut lent) = (call.clone(), *state, lent.clone());
    match &mut call {
        Call::Ingress { topic, .. } => *topic = other,
        Call::Mount { .. } => lent.manifest = other,
        Call::Write { at } | Call::Read { at } | Call::Open { at } => {
            let place = text(&lent.memory, *at).expect("it was named");
            lent.memory[place].copy_from_slice(&other);
        }
        _ => return false,
    }
    let said = models(&mut state, &mut lent, &call);
    !matches!(said, Said::Answer { code: BAD, .. } | Said::Mounted { code: BAD, .. })
}

/// The topic or filter that a call names, or a mount's manifest.
fn named<'a>(call: &'a Call, lent: &'a Lent) -> Option<&'a [u8]> {
    match call {
        Call::Ingress { topic, .. } => Some(topic),
        Call::Mount { .. } => Some(&lent.manifest),
        Call::Write { at } | Call::Read { at } | Call::Open { at } => Some(&lent.memory[text(&lent.memory, *at)?]),
        _ => None,
    }
}

/// Where the text lies whose ptr and len stand first in the argument record.
fn text(memory: &[u8], at: u64) -> Option<Range<usize>> {
    let args = span(memory, at, 16)?;
    let (ptr, len) = (u64_at(args, 0), u64_at(args, 8));
    span(memory, ptr, len)?;
    Some(ptr as usize..(ptr + len) as usize)
}

/// A topic that has it lies in the cursor's window, begins with its filter and comes before its limit: only the grant keeps it out.
fn in_the_way(cursor: &Cursor, state: &State, lent: &Lent) -> bool {
    let (Ok(events), Some(manifest)) = (state.card_events(lent), Manifest::parse(&lent.manifest)) else { return false };
    let granted = |topic: &[u8]| manifest.grants(state.weave.turn, Way::In, topic);
    let list = cursor.list(events, |topic| topic.contains(&DEL) || granted(topic));
    list.iter().any(|event| event.topic.contains(&DEL))
}

/// A record of the used part has it in its topic.
fn on_card(state: &State, lent: &Lent) -> bool {
    let chain = chain::parse(state.used(lent), 1);
    chain.events.iter().any(|(_, event)| event.topic.contains(&DEL))
}

/// The sound record at this place has it in its topic.
fn in_record(buffer: &[u8], at: u64) -> bool {
    let record = &buffer[at as usize..];
    record[128..128 + u32_at(record, 80) as usize].contains(&DEL)
}
