//! Chance from a seed: the same seed makes the same choices.

/// A generator of numbers (splitmix64).
#[derive(Clone)]
pub struct Dice(u64);

impl Dice {
    /// The dice of one run: runs of a seed differ, and so do seeds.
    pub fn new(seed: u64, run: u64) -> Dice {
        let mut dice = Dice(seed ^ run.wrapping_mul(0xD1B5_4A32_D192_ED03));
        dice.bits();
        Dice(dice.bits() ^ run)
    }

    /// Sixty-four bits.
    pub fn bits(&mut self) -> u64 {
        self.0 = self.0.wrapping_add(0x9E37_79B9_7F4A_7C15);
        let mut bits = self.0;
        bits = (bits ^ (bits >> 30)).wrapping_mul(0xBF58_476D_1CE4_E5B9);
        bits = (bits ^ (bits >> 27)).wrapping_mul(0x94D0_49BB_1331_11EB);
        bits ^ (bits >> 31)
    }

    /// A number below the limit, which is at least 1.
    pub fn below(&mut self, limit: usize) -> usize {
        ((u128::from(self.bits()) * limit as u128) >> 64) as usize
    }

    /// Whether something happens that has this chance.
    pub fn chance(&mut self, chance: f64) -> bool {
        ((self.bits() >> 11) as f64) < chance * (1u64 << 53) as f64
    }

    /// One of the items; none of no items.
    pub fn pick(&mut self, items: &[usize]) -> Option<usize> {
        if items.is_empty() {
            return None;
        }
        Some(items[self.below(items.len())])
    }

    /// The items in a chance order.
    pub fn shuffled(&mut self, items: &[usize]) -> Vec<usize> {
        let mut mixed = items.to_vec();
        for end in (1..mixed.len()).rev() {
            mixed.swap(end, self.below(end + 1));
        }
        mixed
    }
}

#[cfg(test)]
mod tests {
    use super::Dice;

    #[test]
    fn a_seed_makes_the_same_choices() {
        let draw = |seed, run| {
            let mut dice = Dice::new(seed, run);
            (0..20).map(|_| dice.below(1000)).collect::<Vec<_>>()
        };
        assert_eq!(draw(1, 0), draw(1, 0));
        assert_ne!(draw(1, 0), draw(1, 1));
        assert_ne!(draw(1, 0), draw(2, 0));
    }

    #[test]
    fn chances_are_kept() {
        let mut dice = Dice::new(3, 0);
        let happened = (0..100_000).filter(|_| dice.chance(0.3)).count();
        assert!((29_000..31_000).contains(&happened));
        assert!(!dice.chance(0.0) && dice.chance(1.0));
    }

    #[test]
    fn a_shuffle_keeps_every_item() {
        let mut mixed = Dice::new(5, 0).shuffled(&[0, 1, 2, 3, 4, 5, 6, 7]);
        mixed.sort_unstable();
        assert_eq!(mixed, [0, 1, 2, 3, 4, 5, 6, 7]);
        assert_eq!(Dice::new(5, 0).pick(&[]), None);
    }
}
