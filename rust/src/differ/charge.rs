//! Whether the calls of a run come to both charge rules (02, A11): writes under each, budgets that tell them apart, a rule that changes in a
//! weave, and what is refused for the charge line alone.
use super::stock;
use super::twin::{models, Call, Said};
use crate::lent::{Fate, Place};
use crate::model::charge::Rule;
use crate::model::manifest::Manifest;
use crate::model::{Lent, State, BAD, BUDGET};

/// The rule that the last accepted write of the weave was charged by, if there was one.
#[derive(Default)]
pub struct Charged(Option<Rule>);

/// A write that came as far as the budget: what it had to spend, and the bytes of its record.
struct Bill {
    units: u64,
    res_max: u64,
    total: u64,
}

impl Bill {
    /// From the state before the write and the one after it.
    fn of(was: &State, state: &State) -> Bill {
        let (w, now) = (&was.weave, &state.weave);
        Bill { units: w.units, res_max: w.res_max, total: now.staged - w.staged }
    }

    fn meets(&self, charge: u64) -> bool {
        self.units as u128 + charge as u128 <= self.res_max as u128
    }
}

impl Charged {
    /// What a call has to do with the charge rules. `was` is the state before it, `state` and `lent` are as the model leaves them.
    pub fn met(&mut self, call: &Call, said: &Said, was: &State, state: &State, lent: &Lent) -> Vec<&'static str> {
        match (call, said) {
            (Call::Begin { .. }, Said::Answer { code: 0, .. }) => self.0 = None,
            (Call::Mount { .. }, Said::Mounted { code: 0, .. }) if grants(lent) == Some(64) => {
                return vec!["0, charge, 64 grants"];
            }
            (Call::Mount { .. }, Said::Mounted { code: BAD, .. })
                if grants(lent) == Some(65) && for_the_last(call, was, lent) =>
            {
                return vec!["-5, charge, 65 grants"];
            }
            (Call::Write { .. }, Said::Answer { code: 0, .. }) => return self.accepted(&Bill::of(was, state), lent),
            (Call::Write { at }, Said::Answer { code: BUDGET, .. }) => return overspent(*at, was, lent),
            _ if refused(said) && for_the_line(call, was, lent) => return vec!["refused for charge"],
            _ => {}
        }
        vec![]
    }

    fn accepted(&mut self, bill: &Bill, lent: &Lent) -> Vec<&'static str> {
        // a panic stages nothing, and no rule charges it
        let Some(rule) = rule(lent).filter(|_| bill.total > 0) else { return vec![] };
        let named = stock::charge_at(&lent.manifest).is_some();
        let before = self.0.replace(rule);
        let mut met = vec![match rule {
            Rule::One if named => "0, charge 1",
            Rule::One => "0, no charge line",
            Rule::Two => "0, charge 2",
        }];
        if rule == Rule::Two && !bill.meets(Rule::One.write(bill.total)) {
            met.push("0, -6 by rule 1");
        }
        if before.is_some_and(|before| before != rule) {
            met.push("0, rule changed");
        }
        met
    }
}

/// A -6 that another rule would not have given: rule 2, or one that is rule 2 rounded down. (Rule 1 asks more than rule 2 for every record.)
fn overspent(at: u64, was: &State, lent: &Lent) -> Vec<&'static str> {
    let (mut state, mut lent) = (*was, lent.clone());
    (state.weave.units, state.weave.res_max) = (0, u64::MAX);
    // the weave was spoiled before it
    if state.write(&mut lent, at).is_err() {
        return vec![];
    }
    let bill = Bill::of(was, &state);
    match rule(&lent) {
        Some(Rule::One) if bill.meets(Rule::Two.write(bill.total)) => vec!["-6, 0 by rule 2"],
        Some(Rule::Two) if bill.meets(4 + bill.total / 64) => vec!["-6, 0 rounded down"],
        _ => vec![],
    }
}

fn rule(lent: &Lent) -> Option<Rule> {
    Manifest::parse(&lent.manifest).map(|manifest| manifest.charge)
}

/// How many grants stand behind a charge line.
fn grants(lent: &Lent) -> Option<usize> {
    stock::charge_at(&lent.manifest)?;
    Some(lent.manifest.split(|b| *b == b'\n').filter(|line| line.starts_with(b"grant\t")).count())
}

/// Check 1 may have done it.
fn refused(said: &Said) -> bool {
    matches!(
        said,
        Said::Mounted { code: BAD, .. }
            | Said::Answer { code: BAD, .. }
            | Said::Fate(Fate::Refused(BAD))
            | Said::Place(Place::Nowhere)
    )
}

/// The manifest is bad, and with a good charge line for all that look like one the call is not refused so.
fn for_the_line(call: &Call, was: &State, lent: &Lent) -> bool {
    if rule(lent).is_some() {
        return false;
    }
    let Some(manifest) = mended(&lent.manifest) else { return false };
    let (mut state, mut lent) = (*was, lent.clone());
    // it may have another length
    if state.lengths.manifest == lent.lengths().manifest {
        state.lengths.manifest = manifest.len() as u64;
    }
    lent.manifest = manifest;
    !refused(&models(&mut state, &mut lent, call))
}

/// A mount that is not refused where the manifest has no last line.
fn for_the_last(call: &Call, was: &State, lent: &Lent) -> bool {
    let (mut state, mut shorter) = (*was, lent.clone());
    shorter.manifest.pop();
    let end = shorter.manifest.iter().rposition(|b| *b == b'\n').map_or(0, |at| at + 1);
    shorter.manifest.truncate(end);
    !refused(&models(&mut state, &mut shorter, call))
}

/// The manifest with a good charge line for every line that looks like one; nothing where there is none.
fn mended(manifest: &[u8]) -> Option<Vec<u8>> {
    let odd = |line: &&[u8]| line.windows(5).any(|w| w == b"harge");
    let lines = manifest.split_inclusive(|b| *b == b'\n');
    let (odd, mut rest): (Vec<&[u8]>, Vec<&[u8]>) = lines.partition(odd);
    odd.first()?;
    rest.insert(rest.len().min(1), b"charge\t1\n");
    Some(rest.concat())
}
