//! Good calls, and calls with one or two bad arguments.
use super::*;

fn live(d: &mut Dice, twin: &mut Twin, harm: u64) -> Agreed<()> {
    let mut h = Habits::new();
    let modules = *d.pick(&[1, 1, 2, 3, 16]);
    let (records, spare) = (d.below(12), d.index(6_000));
    set_up(d, twin, &h, modules, records, spare)?;
    for _ in 0..250 {
        // a box where everything is refused shows little: some calls are good
        h.harm = Harm(if d.one_in(3) { 0 } else { harm });
        step(d, twin, &h)?;
    }
    Ok(())
}

pub fn good(d: &mut Dice, twin: &mut Twin) -> Agreed<()> {
    live(d, twin, 0)
}

pub fn one_bad(d: &mut Dice, twin: &mut Twin) -> Agreed<()> {
    live(d, twin, 1)
}

pub fn two_bad(d: &mut Dice, twin: &mut Twin) -> Agreed<()> {
    live(d, twin, 2)
}
