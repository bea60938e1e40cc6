//! Argument records whose fields are bad on purpose: each alone, each two at once, and all of these again with a fault before the record.
use super::*;
use crate::lent::{Field, ModuleCall};

/// A call in the making: where its record lies, the words of it, where its topic and its value lie. These and the out buffer are not in each
/// other's way.
struct Draft {
    call: ModuleCall,
    at: u64,
    words: Vec<u64>,
    topic: u64,
    value: u64,
}

impl Draft {
    /// A call that is good in every field. A write is one of a value, where `value` says so.
    fn good(d: &mut Dice, twin: &mut Twin, call: ModuleCall, value: bool) -> Draft {
        let at = 8 + 8 * d.below(50);
        let (topic, cell, out) = (at + 64, at + 128, at + 256);
        twin.poke(Buffer::Memory, topic, b"loop/take");
        twin.poke(Buffer::Memory, cell, &bytes(&[*d.pick(&[5, 9]), cell + 32, 12, 0]));
        twin.poke(Buffer::Memory, cell + 32, b"loop by loop");
        let words = match call {
            ModuleCall::Write if value => vec![topic, 9, cell, 32, *d.pick(&[2, 10])],
            ModuleCall::Write => vec![topic, 9, cell, 9 + d.below(90), *d.pick(&[1, 9])],
            ModuleCall::Read => vec![topic, 9, 0, out, 9 + d.below(900)],
            ModuleCall::Open => vec![topic, 9, 0, u64::MAX, u64::MAX, d.below(2)],
            ModuleCall::Next => vec![1, out, 9 + d.below(900)],
            ModuleCall::Close => vec![1],
        };
        Draft { call, at, words, topic, value: cell }
    }

    /// The word of the record that this field is.
    fn word(&mut self, field: Field) -> &mut u64 {
        let offset = field.number(self.call).expect("a field of this call");
        &mut self.words[offset as usize / 8]
    }

    /// This field becomes bad. (Bad flags may make a raw payload a value, and then its len is bad too.)
    fn spoil(&mut self, d: &mut Dice, twin: &mut Twin, field: Field) {
        let m = twin.lent.memory.len() as u64;
        match field {
            // it is not in the record
            Field::Before => before(d, twin, self.call),
            Field::Record => self.at = if d.one_in(2) { self.at + 1 + d.below(7) } else { outside(d, m) },
            Field::Topic => self.spoil_topic(d, twin, m),
            Field::Flags => *self.word(field) |= *d.pick(&[3, 4, 32, 1 << 31]),
            Field::Data => self.spoil_data(d, twin, m),
            Field::Len => *self.word(field) = *d.pick(&[0, 1, 31, 33, 40]),
            Field::OutPtr => self.spoil_pointer(d, m, field),
            Field::Desc => *self.word(field) = 2 + d.below(254),
        }
    }

    /// Its span, its length, its bytes.
    fn spoil_topic(&mut self, d: &mut Dice, twin: &mut Twin, m: u64) {
        match d.below(3) {
            0 => self.words[0] = outside(d, m),
            1 => self.words[1] = *d.pick(&[2_049, m, u64::MAX]),
            _ => twin.poke(Buffer::Memory, self.topic + d.below(9), &[*d.pick(&[0, 31, 127, 255])]),
        }
    }

    /// Where the payload lies, or where the string or the bytes of a value do.
    fn spoil_data(&mut self, d: &mut Dice, twin: &mut Twin, m: u64) {
        let value = *self.word(Field::Flags) & 2 != 0;
        if value && d.one_in(2) {
            twin.poke(Buffer::Memory, self.value + 8, &bytes(&[outside(d, m)]));
        } else if value {
            self.spoil_pointer(d, m, Field::Data);
        } else {
            // a raw payload may lie at any address
            *self.word(Field::Data) = outside(d, m);
        }
    }

    fn spoil_pointer(&mut self, d: &mut Dice, m: u64, field: Field) {
        let word = self.word(field);
        *word = if d.one_in(2) { *word + 1 + d.below(7) } else { outside(d, m) };
    }

    fn ask(&self, twin: &mut Twin) -> Call {
        twin.poke(Buffer::Memory, self.at, &bytes(&self.words));
        Call::of_a_module(self.call, self.at)
    }
}

fn bytes(words: &[u64]) -> Vec<u8> {
    words.iter().flat_map(|w| w.to_le_bytes()).collect()
}

/// An address at which no span of 8 bytes or more lies inside, a multiple of 8.
fn outside(d: &mut Dice, memory: u64) -> u64 {
    let last = memory / 8 * 8;
    *d.pick(&[0, last, last + 8, 1 << 63, u64::MAX - 7])
}

/// A fault that check 1 finds. The table is lent to next alone of these calls.
fn before(d: &mut Dice, twin: &mut Twin, call: ModuleCall) {
    let s = &mut twin.state;
    match d.below(12) {
        0..=3 if call == ModuleCall::Next => s.lengths.index += 1,
        0..=1 => s.lengths.staging += 1,
        2..=3 => s.lengths.card -= 1,
        4..=5 => s.lengths.manifest += 1,
        6 => s.next = 0,
        7 => s.used = u64::MAX,
        8 => s.weave.turn = *d.pick(&[0, 17]),
        9 => s.weave.staged = u64::MAX,
        10 => twin.poke(Buffer::Manifest, 0, b"M"),
        _ => {
            let mut large = twin.lent.memory.clone();
            large.resize(1_048_577, 0);
            twin.lend(Buffer::Memory, large);
        }
    }
}

/// One call with these fields bad, and the box as it was before.
fn refused(d: &mut Dice, twin: &mut Twin, call: ModuleCall, bad: &[Field]) -> Agreed<()> {
    let (state, memory, manifest) = (twin.state, twin.lent.memory.clone(), twin.lent.manifest.clone());
    let value = bad.contains(&Field::Len) || d.one_in(2);
    let mut draft = Draft::good(d, twin, call, value);
    for field in bad {
        draft.spoil(d, twin, *field);
    }
    let call = draft.ask(twin);
    twin.call(call)?;
    twin.state = state;
    twin.lend(Buffer::Memory, memory);
    twin.lend(Buffer::Manifest, manifest);
    Ok(())
}

/// A value that begins at no multiple of 8, and a len that is not 32 but ends inside memory: the address is looked at first. (Dice seldom come to it.)
fn misaligned(d: &mut Dice, twin: &mut Twin) -> Agreed<()> {
    let memory = twin.lent.memory.clone();
    let mut draft = Draft::good(d, twin, ModuleCall::Write, true);
    *draft.word(Field::Data) += 1 + d.below(7);
    *draft.word(Field::Len) = *d.pick(&[0, 31, 33]);
    let call = draft.ask(twin);
    twin.call(call)?;
    twin.lend(Buffer::Memory, memory);
    Ok(())
}

pub fn fields(d: &mut Dice, twin: &mut Twin) -> Agreed<()> {
    let h = Habits::new();
    set_up(d, twin, &h, 1, 3, 3_000)?;
    twin.call(Call::Begin { args: damage::weave_args(u64::MAX) })?;
    // the cursor of next and close
    let open = damage::open_all(d, twin, false);
    twin.call(open)?;
    misaligned(d, twin)?;
    for call in ModuleCall::ALL {
        let fields: Vec<Field> = call.fields().iter().map(|(field, _)| *field).collect();
        for (n, one) in fields.iter().enumerate() {
            refused(d, twin, call, &[*one])?;
            for other in &fields[n + 1..] {
                refused(d, twin, call, &[*one, *other])?;
                if *one != Field::Before {
                    refused(d, twin, call, &[Field::Before, *one, *other])?;
                }
            }
        }
    }
    Ok(())
}
