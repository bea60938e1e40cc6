//! Bytes changed by hand: on the card, in the staging, in the manifest.
use super::*;

/// The byte at an offset, changed; what it was.
pub fn change(d: &mut Dice, twin: &mut Twin, which: Buffer, at: usize) -> u8 {
    let buffer = match which {
        Buffer::Card => &twin.lent.card,
        _ => &twin.lent.staging,
    };
    let was = buffer[at];
    let now = match d.below(4) {
        0 => was ^ (1 << d.below(8)),
        1 => was.wrapping_add(1),
        // in a topic it may stand
        2 => 127,
        _ => d.byte(),
    };
    twin.poke(which, at as u64, &[now]);
    was
}

/// Every offset of a card of three records: mount, next and look-up each time.
pub fn card(d: &mut Dice, twin: &mut Twin) -> Agreed<()> {
    let mut h = Habits::new();
    h.topics.truncate(7);
    h.topics.push(crate::model::text::PANIC.to_vec());
    set_up(d, twin, &h, 2, 3, 40)?;
    twin.call(Call::Begin { args: weave_args(u64::MAX) })?;
    let down = d.one_in(2);
    let open = open_all(d, twin, down);
    twin.call(open)?;
    for at in 0..twin.state.used as usize {
        let was = change(d, twin, Buffer::Card, at);
        let before = twin.state;
        let next = asks::next(d, twin, h.page, Harm(0));
        twin.call(next)?;
        twin.call(Call::LookUp { id: 1 + d.below(3) })?;
        twin.call(Call::Mount { used: before.used })?;
        twin.state = before;
        twin.poke(Buffer::Card, at as u64, &[was]);
    }
    for used in 0..=twin.lent.card.len() as u64 + 1 {
        let before = twin.state;
        twin.call(Call::Mount { used })?;
        twin.state = before;
    }
    Ok(())
}

/// Begin's arguments, with so many units to spend.
pub fn weave_args(res_max: u64) -> Vec<u8> {
    let mut args = vec![7; 128];
    args[24..32].copy_from_slice(&res_max.to_le_bytes());
    args
}

/// A cursor over everything.
pub fn open_all(d: &mut Dice, twin: &mut Twin, down: bool) -> Call {
    let words = [8, 0, 0, u64::MAX, u64::MAX, down as u64];
    let bytes: Vec<u8> = words.iter().flat_map(|w: &u64| w.to_le_bytes()).collect();
    let at = 8 + 8 * d.below(20);
    twin.poke(Buffer::Memory, at, &bytes);
    Call::Open { at }
}

/// Every offset of the staged bytes: read, look-up and the last return each time.
pub fn staging(d: &mut Dice, twin: &mut Twin) -> Agreed<()> {
    let mut h = Habits::new();
    h.topics.truncate(7);
    set_up(d, twin, &h, 1, 1, 5_000)?;
    twin.call(Call::Begin { args: weave_args(u64::MAX) })?;
    for _ in 0..2 {
        let call = asks::ingress(d, &h.topics, 20);
        twin.call(call)?;
    }
    for _ in 0..4 {
        let call = asks::write(d, twin, &h.topics, 20, Harm(0));
        twin.call(call)?;
    }
    let staged = twin.state.weave.staged as usize;
    for at in 0..staged {
        let was = change(d, twin, Buffer::Staging, at);
        let read = asks::read(d, twin, &h.topics, 1_000, Harm(0));
        twin.call(read)?;
        twin.call(Call::LookUp { id: twin.state.next + d.below(6) })?;
        if d.one_in(4) {
            ended_and_back(twin)?;
        }
        twin.poke(Buffer::Staging, at as u64, &[was]);
    }
    Ok(())
}

/// A return, and everything as it was before it.
pub fn ended_and_back(twin: &mut Twin) -> Agreed<()> {
    let (state, lent) = (twin.state, twin.lent.clone());
    twin.call(Call::Return { code: 0 })?;
    twin.state = state;
    twin.lend(Buffer::Staging, lent.staging);
    twin.lend(Buffer::Card, lent.card);
    twin.lend_index(lent.index);
    Ok(())
}

/// Manifests that are wrong in one thing, at mount; and a manifest that changes under the box in a weave.
pub fn manifest(d: &mut Dice, twin: &mut Twin) -> Agreed<()> {
    let h = Habits::new();
    for _ in 0..12 {
        let modules = 1 + d.below(4);
        set_up(d, twin, &h, modules, 2, 500)?;
        let good = twin.lent.manifest.clone();
        for _ in 0..20 {
            let odd = stock::odd_manifest(d, &good);
            twin.lend(Buffer::Manifest, odd);
            twin.call(Call::Mount { used: 0 })?;
        }
        twin.lend(Buffer::Manifest, good.clone());
        let used = twin.lent.card.len() as u64 - 500;
        twin.call(Call::Mount { used })?;
        twin.call(Call::Begin { args: weave_args(100_000) })?;
        for _ in 0..15 {
            under_way(d, twin, &h, &good)?;
            odd_charge(d, twin, &h, &good)?;
        }
    }
    Ok(())
}

/// A call while the manifest has another byte, under the same length.
fn under_way(d: &mut Dice, twin: &mut Twin, h: &Habits, good: &[u8]) -> Agreed<()> {
    let (at, byte) = other_byte(d, good);
    twin.poke(Buffer::Manifest, at, &[byte]);
    let call = any_call(d, twin, h);
    twin.call(call)?;
    twin.poke(Buffer::Manifest, 0, good);
    step(d, twin, h)?;
    Ok(())
}

/// Which byte is to stand where. One in three names another charge, or none that there is.
fn other_byte(d: &mut Dice, good: &[u8]) -> (u64, u8) {
    if let (Some(at), true) = (stock::charge_at(good), d.one_in(3)) {
        return (at, *d.pick(b"1230"));
    }
    let at = d.below(good.len() as u64);
    let byte = if d.one_in(2) { d.byte() } else { *d.pick(b"123456789\t\nin~\x7f") };
    (at, byte)
}

/// A call while the manifest is bad for a charge line. The state is told its length, so that nothing else is wrong.
fn odd_charge(d: &mut Dice, twin: &mut Twin, h: &Habits, good: &[u8]) -> Agreed<()> {
    let before = twin.state;
    let odd = stock::odd_charge(d, good);
    twin.state.lengths.manifest = odd.len() as u64;
    twin.lend(Buffer::Manifest, odd);
    step(d, twin, h)?;
    twin.lend(Buffer::Manifest, good.to_vec());
    twin.state = before;
    Ok(())
}
