//! Whether the calls of a run come to the table (02, A9): one that is too short or of another length, entries and records that are wrong, looked
//! at or not. And where the table fits its card, that the twin's own answer is the one that a walk over the card gives.
use super::del;
use super::twin::{models, Call, Said};
use crate::lent::{Fate, Place};
use crate::model::bytes::{span, u64_at};
use crate::model::chain;
use crate::model::event::Event;
use crate::model::ledger::page;
use crate::model::manifest::{Manifest, Way};
use crate::model::{Code, Cursor, Lent, State, BAD, NOT_NOW, NO_ROOM, UNSOUND};

/// No record is shorter: where less room is left, a listed record ends the page.
const SHORTEST: u64 = 136;

/// What a next asks for. It is taken before the call, which moves the cursor and may put its page over the argument record.
pub struct Asked {
    cursor: Cursor,
    cap: u64,
}

pub fn asked(call: &Call, state: &State, lent: &Lent) -> Option<Asked> {
    let Call::Next { at } = call else { return None };
    let cap = u64_at(span(&lent.memory, *at, 24)?, 16);
    Some(Asked { cursor: del::cursor(call, state, lent)?, cap })
}

/// What a call has to do with the table. `was` is the state before it, `lent` is as the model leaves it.
pub fn met(call: &Call, said: &Said, asked: Option<Asked>, was: &State, lent: &Lent) -> Vec<String> {
    let other_length = was.lengths.index != lent.lengths().index;
    match (call, said) {
        (Call::Mount { used }, Said::Mounted { code, .. }) => mounted(*used, *code, lent),
        (Call::Next { .. } | Call::Return { .. } | Call::LookUp { .. }, said) if other_length && refused(said) => {
            for_its_length(call, was, lent)
        }
        (Call::Return { code: 0 | 1 }, Said::Fate(fate)) => ended(*fate, was, lent),
        (Call::LookUp { id }, Said::Place(place)) => looked_up(*id, *place, was, lent),
        (Call::Next { .. }, Said::Answer { code, value, .. }) => match asked {
            Some(asked) => asked.met(*code, *value, was, lent),
            None => vec![],
        },
        _ => vec![],
    }
}

/// Check 1 may have done it.
fn refused(said: &Said) -> bool {
    matches!(said, Said::Answer { code: BAD, .. } | Said::Fate(Fate::Refused(BAD)) | Said::Place(Place::Nowhere))
}

/// The words that hold.
fn those(words: &[(bool, &str)]) -> Vec<String> {
    words.iter().filter(|(holds, _)| *holds).map(|(_, word)| word.to_string()).collect()
}

fn mounted(used: u64, code: Code, lent: &Lent) -> Vec<String> {
    let Some(part) = usize::try_from(used).ok().and_then(|used| lent.card.get(..used)) else { return vec![] };
    let (records, entries) = (chain::parse(part, 1).events.len(), lent.index.len());
    let short = entries < records;
    match code {
        0 => those(&[(0 < records && records == entries, "0, table full"), (records < entries, "0, entries over")]),
        UNSOUND => those(&[(short, "-3, table short too")]),
        // with a longer one it is accepted, so that nothing else was wrong
        BAD if short && State::mount(&mut longer(lent, records), used).0.is_ok() => {
            those(&[(true, "-5, table short"), (entries + 1 == records, "-5, one entry short")])
        }
        _ => vec![],
    }
}

fn longer(lent: &Lent, entries: usize) -> Lent {
    let mut longer = lent.clone();
    longer.index.resize(entries, 0);
    longer
}

/// A refusal for the table's length alone: with the right one the call says something else.
fn for_its_length(call: &Call, was: &State, lent: &Lent) -> Vec<String> {
    let (mut state, mut lent) = (*was, lent.clone());
    state.lengths.index = lent.lengths().index;
    let said = models(&mut state, &mut lent, call);
    // check 1 comes before check 2
    let later = matches!(said, Said::Answer { code: NOT_NOW, .. } | Said::Fate(Fate::Refused(NOT_NOW)));
    those(&[(!refused(&said), "refused for the table"), (later, "-5 before -2, table")])
}

/// A return with a code that does not discard. What it says of room, the last module's says.
fn ended(fate: Fate, was: &State, lent: &Lent) -> Vec<String> {
    let w = &was.weave;
    let (wanted, entries) = (was.next.saturating_sub(1).saturating_add(w.count), lent.lengths().index);
    let (short, one_short) = (entries < wanted, entries + 1 == wanted);
    let card = was.used.saturating_add(w.staged) <= lent.lengths().card;
    match fate {
        Fate::Discarded(NO_ROOM) => those(&[
            (card && short, "-4, table short"),
            (card && one_short && 0 < w.count, "-4, one entry short"),
            (card && short && w.count == 0, "-4, short, none staged"),
            (!card && short, "-4, card and table short"),
            (!card && !short, "-4, card short"),
        ]),
        Fate::Discarded(UNSOUND) => those(&[(short, "-3, table short too")]),
        Fate::Committed { events: 1.., .. } => {
            those(&[(wanted == entries, "committed, table full"), (wanted < entries, "committed, entries over")])
        }
        _ => vec![],
    }
}

fn looked_up(id: u64, place: Place, was: &State, lent: &Lent) -> Vec<String> {
    // a number that the card does not have, or check 1
    if !(1..was.next).contains(&id) || was.check_indexed(lent).is_err() {
        return vec![];
    }
    let walked = chain::parse(was.used(lent), 1).find(id).map_or(Place::Nowhere, |(at, len)| Place::Card { at, len });
    if fitting(was, lent).is_some() {
        assert_eq!(place, walked, "the twin's look-up is not the walk's");
        return vec!["as the walk says".into()];
    }
    match place {
        Place::Nowhere => vec![format!("nowhere, {}", cause(id, was, lent))],
        _ => those(&[(walked == Place::Nowhere, "not by a walk"), (walked == place, "a fault elsewhere")]),
    }
}

/// Why there is no record with a number.
fn cause(id: u64, was: &State, lent: &Lent) -> &'static str {
    let entry = usize::try_from(id - 1).ok().and_then(|place| lent.index.get(place));
    let Some(at) = entry else { return "no entry" };
    let part = was.used(lent).get(*at as usize..).unwrap_or(&[]);
    match part.get(8..16).map(|number| u64_at(number, 0)) {
        None if part.is_empty() => "outside",
        Some(number) if Event::at_head(part, number).is_some() => "another",
        _ => "no record",
    }
}

/// The card's events, where it is sound and the table has just their offsets.
fn fitting(was: &State, lent: &Lent) -> Option<Vec<Event>> {
    let part = was.used(lent);
    let chain = chain::parse(part, 1);
    let fits = chain.events.iter().enumerate().all(|(n, (at, _))| lent.index.get(n) == Some(&(*at as u32)));
    chain.whole(part, was.next - 1).filter(|_| fits)
}

impl Asked {
    /// Of a next that was not refused for its arguments.
    fn met(&self, code: Code, value: u64, was: &State, lent: &Lent) -> Vec<String> {
        let Some(manifest) = Manifest::parse(&lent.manifest) else { return vec![] };
        let granted = |topic: &[u8]| manifest.grants(was.weave.turn, Way::In, topic);
        match code {
            UNSOUND => self.not_sound(granted, was, lent),
            0 | NO_ROOM => match fitting(was, lent) {
                Some(events) => {
                    let walked = page(self.cursor.list(events, granted).into_iter(), self.cap).map(|page| page.bytes);
                    let said = if code == 0 { Ok(value) } else { Err(code) };
                    assert_eq!(said, walked, "the twin's page is not the walk's");
                    self.window(was)
                }
                None => self.passed_by(code, was, lent),
            },
            _ => vec![],
        }
    }

    fn way(&self) -> &'static str {
        if self.cursor.desc {
            "downward"
        } else {
            "upward"
        }
    }

    /// Windows that the card does not have, or not all of.
    fn window(&self, was: &State) -> Vec<String> {
        let (Cursor { from, to, .. }, way) = (self.cursor, self.way());
        those(&[
            (true, "as the walk says"),
            (was.next <= from && from < to, &format!("{way}, window above")),
            (from < was.next && was.next < to, &format!("{way}, window cut")),
            (from == 0 && to == 1, "window below"),
            (to <= from, "no window"),
        ])
    }

    /// -3: for which record, and what came before it.
    fn not_sound(&self, granted: impl Fn(&[u8]) -> bool, was: &State, lent: &Lent) -> Vec<String> {
        let way = self.way();
        let numbers = || self.cursor.numbers(was.next);
        let sound: Vec<Event> = numbers().map_while(|id| Some(was.by_entry(lent, id)?.1)).collect();
        let id = numbers().nth(sound.len()).expect("one that was looked at");
        let listed = sound.iter().filter(|event| self.cursor.picks(event, &granted));
        let bytes = listed.map(|event| event.total() as u64).sum::<u64>();
        those(&[
            (true, &format!("-3, {}", cause(id, was, lent))),
            (sound.is_empty(), &format!("-3 {way}, first")),
            (bytes > 0, &format!("-3 {way}, after some")),
            (bytes > 0 && self.cap < bytes + SHORTEST, "-3, no room left"),
            (was.weave.res_max <= was.weave.units, "-3 before -6"),
        ])
    }

    /// A fault that was not looked at. The call was answered, so that one in the window lies behind the page.
    fn passed_by(&self, code: Code, was: &State, lent: &Lent) -> Vec<String> {
        let way = self.way();
        let numbers = || self.cursor.numbers(was.next);
        let none = numbers().next().is_none();
        let behind = numbers().any(|id| was.by_entry(lent, id).is_none());
        let sound = was.card_events(lent).is_ok();
        those(&[
            (none, "0, no number, a fault"),
            (!none && self.cursor.limit == 0, "0, limit 0, a fault"),
            (!none && !behind, &format!("{way}, fault outside")),
            (behind && 0 < self.cursor.limit && code == 0, &format!("{way}, fault behind")),
            (behind && code == NO_ROOM, "-4, fault behind"),
            (behind && sound, "behind: an entry alone"),
            (behind && !sound, "behind: a record"),
        ])
    }
}
