//! Two bands share a box (02, A14): two boxes side by side, whose cards differ in nothing that one module is granted. Its turn has to be
//! the same in both. Each box is held against the twin in plain Rust as well.
mod cards;

use super::asks::{self, Harm};
use super::dice::Dice;
use super::lives::{self, Habits};
use super::twin::{Agreed, Buffer, Call, Difference, Said, Tally, Twin};
use super::{del, Way};
use crate::lent::Caller;
use crate::model::event::Event;
use crate::model::ledger::page;
use crate::model::manifest::Manifest;
use crate::model::{Cursor, Spoiled};
use cards::Grants;
use std::ops::Range;
use std::rc::Rc;

/// So begins what is said where the two boxes differ, and not a box and its twin.
pub const APART: &str = "the two boxes differ";

struct Boxes {
    one: Twin,
    other: Twin,
    /// of the module whose turn is looked at
    grants: Grants,
    /// the used length of both cards at mount, and how many records they had
    used: usize,
    records: usize,
}

impl Boxes {
    /// Both, alike but for their cards. Off key, these differ in a byte that is granted.
    fn mount(d: &mut Dice, archive: &Rc<dyn Caller>, h: &Habits, off_key: bool) -> Agreed<Boxes> {
        let (mut one, mut other) = (Twin::new(archive.clone()), Twin::new(archive.clone()));
        let (modules, records, spare) = (2 + d.below(2), 10 + d.below(31), d.index(6_000));
        lives::set_up(d, &mut one, h, modules, records, spare)?;
        let manifest = Manifest::parse(&one.lent.manifest).expect("the stock's manifests are good");
        let grants = Grants { manifest, module: 1 + d.below(modules) };
        let mut card = cards::other(d, &events(&one), &h.topics, &grants);
        if off_key {
            cards::off_key(&mut card, &grants);
        }
        other.lend(Buffer::Card, one.lent.card.clone());
        other.poke(Buffer::Card, 0, &card.iter().flat_map(Event::stored).collect::<Vec<u8>>());
        other.lend(Buffer::Staging, one.lent.staging.clone());
        other.lend(Buffer::Manifest, one.lent.manifest.clone());
        // each mount fills its own
        other.lend_index(one.lent.index.clone());
        let used = one.state.used;
        let records = one.state.next as usize - 1;
        let mut boxes = Boxes { one, other, grants, used: used as usize, records };
        boxes.call(Call::Mount { used })?;
        Ok(boxes)
    }

    /// The same call to both, with the same memory. After it nothing may differ but what was on the cards at mount, and its entries.
    fn call(&mut self, call: Call) -> Agreed<Said> {
        let Boxes { one, other, used, records, .. } = self;
        other.lend(Buffer::Memory, one.lent.memory.clone());
        let cursor = del::cursor(&call, &one.state, &one.lent);
        let (said, others) = (one.call(call.clone())?, other.call(call.clone())?);
        let (a, b) = (&one.lent, &other.lent);
        let (takes, entries) = (a.card[*used..] == b.card[*used..], a.index[*records..] == b.index[*records..]);
        let lent = [a.memory == b.memory, a.staging == b.staging, takes, entries];
        let states = one.state == other.state;
        if said != others || !states || lent != [true; 4] {
            let alike = format!("alike are the states {states}; memory, staging, new takes and their entries {lent:?}");
            return Err(Difference(format!("{APART}: {said:?} and {others:?} to {call:?}; {alike}")));
        }
        self.count("turn", &[(true, "calls")]);
        if let (Some(cursor), Said::Answer { code: 0, value, .. }) = (cursor, said) {
            self.count_page(&cursor, value);
        }
        Ok(said)
    }

    /// What holds goes into the tally.
    fn count(&mut self, name: &'static str, words: &[(bool, &str)]) {
        for (_, word) in words.iter().filter(|(holds, _)| *holds) {
            *self.one.tally.entry((name, word.to_string())).or_insert(0) += 1;
        }
    }

    /// A page of so many bytes; `cursor` is as it was before it.
    fn count_page(&mut self, cursor: &Cursor, bytes: u64) {
        let card = events(&self.one);
        let list = Cursor { limit: u64::MAX, ..*cursor }.list(card.clone(), |topic| !self.grants.hide(topic));
        let cut = cursor.limit < list.len() as u64;
        let handed = page(list.into_iter(), bytes).map_or(vec![], |page| page.events);
        let ids = || handed.iter().map(|event| event.id);
        let between = |event: &&Event| ids().min() < Some(event.id) && Some(event.id) < ids().max();
        let over = card.iter().filter(between).any(|event| self.grants.hide(&event.topic));
        let way = if cursor.desc { "downward" } else { "upward" };
        self.count("tl_next", &[(bytes > 0, way), (over, "over hidden takes"), (cut, "cut by its limit")]);
    }

    /// A module call, one in five of them bad. The first 14 of 24 kinds are no next.
    fn any_call(&mut self, d: &mut Dice, h: &Habits, kinds: u64) -> Agreed<Said> {
        let (twin, harm) = (&mut self.one, Harm(if d.one_in(5) { 1 + d.below(2) } else { 0 }));
        let call = match d.below(kinds) {
            0..=2 => asks::write(d, twin, &h.topics, h.payload, harm),
            3..=4 => asks::read(d, twin, &h.topics, h.page, harm),
            5..=10 => asks::open(d, twin, &h.topics, harm),
            11..=13 => asks::close(d, twin, harm),
            _ => asks::next(d, twin, h.page, harm),
        };
        self.call(call)
    }

    /// A list of all that is granted, as far as the units go. No record of the stock's is longer than these pages.
    fn list_all(&mut self, d: &mut Dice) -> Agreed<()> {
        let bytes = |words: &[u64]| words.iter().flat_map(|word| word.to_le_bytes()).collect::<Vec<u8>>();
        self.one.poke(Buffer::Memory, 8, &bytes(&[8, 0, 0, u64::MAX, u64::MAX, d.below(2)]));
        let mut said = self.call(Call::Open { at: 8 })?;
        let handle = self.one.state.weave.opened;
        while matches!(said, Said::Answer { code: 0, value: 1.., .. }) {
            self.one.poke(Buffer::Memory, 8, &bytes(&[handle, 32, 3_000 + d.below(1_000)]));
            said = self.call(Call::Next { at: 8 })?;
        }
        self.count("tl_next", &[(matches!(said, Said::Answer { code: 0, .. }), "all listed")]);
        Ok(())
    }

    /// A weave up to the module's turn. Those before it list nothing, as they may be granted what differs.
    fn up_to_the_turn(&mut self, d: &mut Dice, h: &Habits) -> Agreed<()> {
        while !self.one.state.weave.running {
            let budget = d.below(h.budget);
            self.call(asks::begin(d, budget))?;
        }
        for _ in 0..d.below(4) {
            self.call(asks::ingress(d, &h.topics, h.payload))?;
        }
        for _ in 1..self.grants.module {
            for _ in 0..d.below(6) {
                self.any_call(d, h, 14)?;
            }
            self.call(Call::Return { code: d.below(2) as i64 })?;
        }
        Ok(())
    }

    /// The turn that has to be the same in both boxes, and its return.
    fn turn(&mut self, d: &mut Dice, h: &Habits) -> Agreed<()> {
        self.count("cards", &cards::told(&events(&self.one), &events(&self.other), &self.grants));
        self.count("tables", &[(self.one.lent.index != self.other.lent.index, "differ")]);
        if d.one_in(2) {
            self.list_all(d)?;
        }
        for _ in 0..30 + d.below(90) {
            self.any_call(d, h, 24)?;
            // what comes behind it is refused alike
            if self.one.state.weave.spoiled != Spoiled::Not && d.one_in(4) {
                break;
            }
        }
        self.call(asks::module_return(d))?;
        Ok(())
    }
}

/// The events on a box's card.
fn events(twin: &Twin) -> Vec<Event> {
    twin.state.card_events(&twin.lent).expect("a mounted card is sound")
}

/// One life: all that happens in it hangs on its seed. What came up in the module's turn, if it came to that.
fn live(archive: &Rc<dyn Caller>, seed: u64, off_key: bool) -> Agreed<Tally> {
    let d = &mut Dice::new(seed);
    let mut h = Habits::new();
    h.topics.truncate(*d.pick(&[3, 4, 7, 12]));
    h.page = *d.pick(&[400, 1_500, 4_000]);
    h.budget = *d.pick(&[60, 2_000, 1 << 40, 1 << 40]);
    let mut boxes = Boxes::mount(d, archive, &h, off_key)?;
    boxes.up_to_the_turn(d, &h)?;
    boxes.one.tally.clear();
    // the weave may have ended before
    if boxes.one.state.weave.turn == boxes.grants.module {
        boxes.turn(d, &h)?;
    }
    Ok(boxes.one.tally)
}

/// A life for each seed, and what it came to.
pub fn lives(way: Way, seeds: Range<u64>, off_key: bool) -> impl Iterator<Item = (u64, Result<Tally, Difference>)> {
    let archive = way.archive();
    seeds.map(move |seed| (seed, live(&archive, seed, off_key)))
}
