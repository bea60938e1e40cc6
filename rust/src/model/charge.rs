//! What a write costs: one of two rules, which the manifest names. The other calls cost the same under both.

/// 02, A11: "`charge` .. names 1 (also when absent) or 2"
#[derive(Clone, Copy, Debug, PartialEq, Eq)]
pub enum Rule {
    One,
    Two,
}

impl Rule {
    /// The units of a write whose record has so many bytes.
    pub fn write(self, total_len: u64) -> u64 {
        match self {
            // 01: "write 1 + total_len / 8"
            Rule::One => 1 + total_len / 8,
            // 02: "Under 2 a write costs 4 units plus total_len / 64 rounded up"
            Rule::Two => 4 + total_len.div_ceil(64),
        }
    }
}

#[cfg(test)]
mod tests {
    use super::*;

    /// By hand: the shortest record, totals about multiples of 64, the longest that staging has room for.
    #[test]
    fn a_write_costs_what_its_rule_says() {
        let prices = [
            (136, 18, 7),
            (152, 20, 7),
            (192, 25, 7),
            (200, 26, 8),
            (256, 33, 8),
            (264, 34, 9),
            (1_048_576, 131_073, 16_388),
        ];
        for (total, one, two) in prices {
            assert_eq!((Rule::One.write(total), Rule::Two.write(total)), (one, two), "a record of {total} bytes");
        }
    }

    /// So no budget that meets rule 1 is too small for rule 2.
    #[test]
    fn rule_2_asks_less_for_every_record() {
        assert!((136..=1_048_576).step_by(8).all(|total| Rule::Two.write(total) < Rule::One.write(total)));
    }
}
