//! Pages at every capacity, upward and downward, and of read.
use super::*;

pub fn capacities(d: &mut Dice, twin: &mut Twin) -> Agreed<()> {
    let mut h = Habits::new();
    h.topics.truncate(3);
    let (records, spare) = (2 + d.below(4), d.index(2_000));
    set_up(d, twin, &h, 1, records, spare)?;
    let memory = d.bytes(4_096);
    twin.lend(Buffer::Memory, memory);
    twin.call(Call::Begin { args: damage::weave_args(u64::MAX) })?;
    for _ in 0..3 {
        let call = asks::write(d, twin, &h.topics, 30, Harm(0));
        twin.call(call)?;
    }
    let most = twin.state.used.max(twin.state.weave.staged) + 9;
    for down in [false, true] {
        let open = damage::open_all(d, twin, down);
        twin.call(open)?;
        let fresh = twin.state;
        for cap in 0..=most.min(1_200) {
            twin.state = fresh;
            page(twin, fresh.weave.opened, cap)?;
            if cap % 7 == 0 {
                // to the end of the list, with the same capacity
                for _ in 0..records + 1 {
                    page(twin, fresh.weave.opened, cap)?;
                }
            }
        }
    }
    reads(twin, most.min(900))
}

/// A next whose page lies over its own argument record.
pub fn page(twin: &mut Twin, handle: u64, cap: u64) -> Agreed<Said> {
    let words: Vec<u8> = [handle, 16, cap].iter().flat_map(|w| w.to_le_bytes()).collect();
    twin.poke(Buffer::Memory, 8, &words);
    twin.call(Call::Next { at: 8 })
}

fn reads(twin: &mut Twin, most: u64) -> Agreed<()> {
    for cap in 0..=most {
        twin.poke(Buffer::Memory, 56, b"loop/take");
        let words: Vec<u8> = [56, 9, 0, 48, cap].iter().flat_map(|w: &u64| w.to_le_bytes()).collect();
        twin.poke(Buffer::Memory, 8, &words);
        twin.call(Call::Read { at: 8 })?;
    }
    Ok(())
}
