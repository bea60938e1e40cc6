//! A box that lives long: hundreds of weaves on one card, and a mount now and then.
use super::*;

pub fn weaves(d: &mut Dice, twin: &mut Twin) -> Agreed<()> {
    let mut h = Habits::new();
    h.topics.truncate(6);
    h.payload = 40;
    let modules = 1 + d.below(2);
    set_up(d, twin, &h, modules, 0, 60_000)?;
    for weave in 0..200 + d.below(200) {
        twin.call(Call::Begin { args: damage::weave_args(if d.one_in(9) { 40 } else { 1_000 }) })?;
        for _ in 0..2 + d.below(4) {
            let call = any_call(d, twin, &h);
            twin.call(call)?;
        }
        while twin.state.weave.running {
            let code = if d.one_in(12) { -3 } else { 0 };
            twin.call(Call::Return { code })?;
        }
        if weave % 50 == 49 || twin.state.faulted {
            let used = twin.state.used;
            twin.call(Call::Mount { used })?;
        }
    }
    let last = twin.state.next;
    for id in [1, last / 2, last - 1, last] {
        twin.call(Call::LookUp { id })?;
    }
    Ok(())
}
