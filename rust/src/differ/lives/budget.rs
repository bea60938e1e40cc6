//! Budgets at the edge: each call with just enough units, one too few or one too many, and with sums that do not fit 64 bits. What a write
//! costs changes under way.
use super::*;
use crate::model::Spoiled;

/// The units that a call costs in this state: tried with all the units there are, and everything put back.
fn price(twin: &mut Twin, call: &Call) -> Agreed<u64> {
    let (state, lent) = (twin.state, twin.lent.clone());
    twin.state.weave.units = 0;
    twin.state.weave.res_max = u64::MAX;
    twin.call(call.clone())?;
    let price = twin.state.weave.units;
    twin.state = state;
    twin.lend(Buffer::Memory, lent.memory);
    twin.lend(Buffer::Staging, lent.staging);
    Ok(price)
}

/// The charge line, if there is one, gets one of its two numbers: a rule may change in a weave.
fn some_charge(d: &mut Dice, twin: &mut Twin) {
    if let Some(at) = stock::charge_at(&twin.lent.manifest) {
        twin.poke(Buffer::Manifest, at, &[*d.pick(b"12")]);
    }
}

/// Any call; one in three is a write of a record whose bytes are a multiple of 64, or 8 more.
fn some_call(d: &mut Dice, twin: &mut Twin, h: &Habits) -> Call {
    if d.one_in(3) {
        let total = *d.pick(&[192, 200, 256, 264]);
        return asks::write_of(d, twin, total);
    }
    any_call(d, twin, h)
}

pub fn edges(d: &mut Dice, twin: &mut Twin) -> Agreed<()> {
    let h = Habits { page: 3_000, ..Habits::new() };
    set_up(d, twin, &h, 1, 6, 3_000)?;
    for _ in 0..25 {
        twin.call(Call::Begin { args: damage::weave_args(u64::MAX) })?;
        for _ in 0..4 {
            // what the last call spoiled would refuse all others
            twin.state.weave.spoiled = Spoiled::Not;
            some_charge(d, twin);
            let call = some_call(d, twin, &h);
            if matches!(call, Call::Return { .. }) {
                continue;
            }
            let price = price(twin, &call)?;
            let w = &mut twin.state.weave;
            w.units = *d.pick(&[0, 1, 77, u64::MAX - price, (u64::MAX - price).wrapping_add(1)]);
            // one more than it needs, just that, one less
            w.res_max = w.units.saturating_add(price).saturating_add(1).wrapping_sub(d.below(3));
            twin.call(call)?;
            // the first -6 spoils: what comes after it
            let call = any_call(d, twin, &h);
            twin.call(call)?;
        }
        twin.call(Call::Return { code: 0 })?;
    }
    Ok(())
}
