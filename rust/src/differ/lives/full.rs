//! Staging and card full to the last byte.
use super::*;

/// An ingress whose record has just so many bytes, with a topic of one byte.
fn ingress_of(bytes: u64) -> Call {
    Call::Ingress { topic: b"a".to_vec(), payload: vec![5; (bytes - 136) as usize] }
}

pub fn full(d: &mut Dice, twin: &mut Twin) -> Agreed<()> {
    let h = Habits { payload: 9_000, page: 20_000, budget: 1_000_000, ..Habits::new() };
    let spare = d.index(90_000);
    set_up(d, twin, &h, 1, 2, spare)?;
    let memory = d.bytes(40_000);
    twin.lend(Buffer::Memory, memory);
    for _ in 0..6 {
        twin.call(Call::Begin { args: damage::weave_args(u64::MAX) })?;
        fill(d, twin, &h)?;
        for _ in 0..12 {
            let call = any_call(d, twin, &h);
            twin.call(call)?;
        }
        twin.call(Call::Return { code: 0 })?;
    }
    card_to_the_last_byte(d, twin)
}

/// Memory and staging of 1 MiB, and payloads that go with them.
pub fn large(d: &mut Dice, twin: &mut Twin) -> Agreed<()> {
    const MIB: usize = 1_048_576;
    let h = Habits { payload: 400_000, page: MIB as u64, budget: 1_000_000, ..Habits::new() };
    set_up(d, twin, &h, 1, 3, 3_000_000)?;
    twin.lend(Buffer::Memory, vec![b'm'; MIB]);
    twin.lend(Buffer::Staging, vec![1; MIB]);
    let used = twin.state.used;
    twin.call(Call::Mount { used })?;
    for _ in 0..30 {
        step(d, twin, &h)?;
    }
    Ok(())
}

/// Staging up to a few bytes, then what fits just and what is 8 too long.
fn fill(d: &mut Dice, twin: &mut Twin, h: &Habits) -> Agreed<()> {
    while d.below(20) > 0 {
        let call = asks::ingress(d, &h.topics, h.payload);
        twin.call(call)?;
    }
    let left = (twin.lent.staging.len() as u64).saturating_sub(twin.state.weave.staged);
    let fits = left / 8 * 8;
    if fits >= 400 {
        let call = ingress_of(fits - 136 - 8 * d.below(3));
        twin.call(call)?;
    }
    for bytes in [152, 144, 136] {
        twin.call(ingress_of(bytes))?;
    }
    Ok(())
}

/// A card with room for just what is staged, and for one byte less.
fn card_to_the_last_byte(d: &mut Dice, twin: &mut Twin) -> Agreed<()> {
    for short in [0, 1, 8, 136] {
        let records = 1 + d.below(3);
        let room = (136 * records).saturating_sub(short);
        let card = d.bytes(room as usize);
        twin.lend(Buffer::Card, card);
        twin.call(Call::Mount { used: 0 })?;
        for _ in 0..2 {
            twin.call(Call::Begin { args: damage::weave_args(0) })?;
            for _ in 0..records {
                twin.call(ingress_of(136))?;
            }
            twin.call(Call::Return { code: 1 })?;
            twin.call(Call::LookUp { id: records })?;
        }
    }
    Ok(())
}
