//! Buffers, the same in every run.

pub struct Dice(pub u64);

impl Dice {
    pub fn below(&mut self, n: u64) -> u64 {
        self.0 = self.0.wrapping_mul(6364136223846793005).wrapping_add(1442695040888963407);
        (self.0 >> 33) % n
    }
}

pub fn bytes(n: usize, from: u64, to: u64) -> Vec<u8> {
    let mut d = Dice(1);
    (0..n).map(|_| (from + d.below(to - from)) as u8).collect()
}

/// So many bytes of text, the length of each character picked from `sizes`, in no order; ASCII where no more fit.
pub fn text(d: &mut Dice, n: usize, sizes: &[usize]) -> Vec<u8> {
    let mut text = String::new();
    while text.len() + 4 <= n {
        let size = sizes[d.below(sizes.len() as u64) as usize];
        let (from, to) = [(0x20, 0x7F), (0x80, 0x800), (0x800, 0xD800), (0x10000, 0x110000)][size - 1];
        text.push(char::from_u32((from + d.below(to - from)) as u32).unwrap());
    }
    while text.len() < n {
        text.push('.');
    }
    text.into_bytes()
}

/// A card of so many records of 136 bytes: each has a topic of at most 8 bytes, and no payload.
pub fn card(records: u64, topic: fn(u64) -> &'static [u8]) -> Vec<u8> {
    (1..=records).flat_map(|id| record(id, topic(id))).collect()
}

fn record(id: u64, topic: &[u8]) -> [u8; 136] {
    let mut r = [0; 136];
    r[..4].copy_from_slice(&136u32.to_le_bytes());
    r[4] = 1;
    r[8..16].copy_from_slice(&id.to_le_bytes());
    r[16..24].copy_from_slice(&(5_000 + id).to_le_bytes());
    r[32] = 1;
    r[48..73].fill(id as u8);
    r[80] = topic.len() as u8;
    r[128..128 + topic.len()].copy_from_slice(topic);
    r
}

/// Begin's 128 bytes.
pub fn weave_args(res_max: u64) -> [u8; 128] {
    let mut args = [0; 128];
    args[24..32].copy_from_slice(&res_max.to_le_bytes());
    args[48..56].copy_from_slice(&5_000u64.to_le_bytes());
    args
}

/// Words put into a memory, one behind the other.
pub fn put(memory: &mut [u8], at: usize, words: &[u64]) {
    for (i, w) in words.iter().enumerate() {
        memory[at + 8 * i..at + 8 * i + 8].copy_from_slice(&w.to_le_bytes());
    }
}
