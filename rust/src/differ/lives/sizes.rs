//! Buffers at the edges of their sizes, and lengths that are not those at mount.
use super::*;

pub fn sizes(d: &mut Dice, twin: &mut Twin) -> Agreed<()> {
    let h = Habits::new();
    set_up(d, twin, &h, 1, 2, 100)?;
    let used = twin.state.used;
    at_mount(d, twin, used)?;
    twin.call(Call::Mount { used })?;
    twin.call(Call::Begin { args: damage::weave_args(u64::MAX) })?;
    for _ in 0..30 {
        other_length(d, twin, &h)?;
        other_table(d, twin, &h)?;
    }
    for size in [0, 7, 8, 47, 48, 56, 1_048_576, 1_048_577] {
        let memory = d.bytes(size.min(64)).into_iter().cycle().take(size).collect();
        twin.lend(Buffer::Memory, memory);
        for _ in 0..4 {
            let call = any_call(d, twin, &h);
            twin.call(call)?;
        }
    }
    Ok(())
}

fn at_mount(d: &mut Dice, twin: &mut Twin, used: u64) -> Agreed<()> {
    let staging = *d.pick(&[0, 65_535, 65_536, 65_537, 1_048_576, 1_048_577]);
    let was = twin.lend(Buffer::Staging, vec![3; staging]);
    twin.call(Call::Mount { used })?;
    twin.lend(Buffer::Staging, was);
    let big = *d.pick(&[0, 1, 200, 16_777_216, 16_777_217]);
    let mut card = twin.lent.card.clone();
    card.resize(big, 9);
    let was = twin.lend(Buffer::Card, card);
    for used in [used, 0, big as u64, big as u64 + 1, u64::MAX] {
        twin.call(Call::Mount { used })?;
    }
    twin.lend(Buffer::Card, was);
    Ok(())
}

/// Calls while the table is longer or shorter than at mount. Most are not lent it.
fn other_table(d: &mut Dice, twin: &mut Twin, h: &Habits) -> Agreed<()> {
    let n = twin.lent.index.len() as u64;
    let entries = *d.pick(&[n + 1, n - 1, 0]);
    let was = twin.lend_index(stock::table(d, entries));
    for _ in 0..3 {
        let call = any_call(d, twin, h);
        twin.call(call)?;
    }
    twin.lend_index(was);
    Ok(())
}

/// A call while one buffer is longer or shorter than at mount.
fn other_length(d: &mut Dice, twin: &mut Twin, h: &Habits) -> Agreed<()> {
    let which = *d.pick(&[Buffer::Staging, Buffer::Card, Buffer::Manifest]);
    let mut bytes = match which {
        Buffer::Staging => twin.lent.staging.clone(),
        Buffer::Card => twin.lent.card.clone(),
        _ => twin.lent.manifest.clone(),
    };
    let n = bytes.len();
    bytes.resize(*d.pick(&[n + 1, n - 1, 0, n]), 0);
    let was = twin.lend(which, bytes);
    for _ in 0..3 {
        let call = any_call(d, twin, h);
        twin.call(call)?;
    }
    twin.lend(which, was);
    step(d, twin, h)?;
    Ok(())
}
