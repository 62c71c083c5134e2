//! Numbers by chance that are the same on every machine for the same seed (SplitMix64).

pub struct Rng(u64);

const STEP: u64 = 0x9e37_79b9_7f4a_7c15;

impl Rng {
    /// The generator of one of many lists. Each list has its own, so that it can be made again
    /// without those ahead of it.
    pub fn of_list(seed: u64, list: u64) -> Rng {
        let mut outer = Rng(seed ^ list.wrapping_mul(0xd1b5_4a32_d192_ed03));
        Rng(outer.next())
    }

    pub fn next(&mut self) -> u64 {
        self.0 = self.0.wrapping_add(STEP);
        let mut mixed = self.0;
        mixed = (mixed ^ (mixed >> 30)).wrapping_mul(0xbf58_476d_1ce4_e5b9);
        mixed = (mixed ^ (mixed >> 27)).wrapping_mul(0x94d0_49bb_1331_11eb);
        mixed ^ (mixed >> 31)
    }

    /// From 0 to one below the bound. The bounds are small, so the bias does not matter.
    pub fn below(&mut self, bound: usize) -> usize {
        (self.next() % bound as u64) as usize
    }

    pub fn between(&mut self, low: i64, high: i64) -> i64 {
        low + self.below((high - low + 1) as usize) as i64
    }

    pub fn percent(&mut self, chance: usize) -> bool {
        self.below(100) < chance
    }

    pub fn pick<T: Copy>(&mut self, items: &[T]) -> T {
        items[self.below(items.len())]
    }

    /// An item by the weight that stands beside it.
    pub fn weighted<T: Copy>(&mut self, items: &[(usize, T)]) -> T {
        let mut rest = self.below(items.iter().map(|item| item.0).sum());
        for &(weight, item) in items {
            if rest < weight {
                return item;
            }
            rest -= weight;
        }
        unreachable!("the rest is below the sum of the weights")
    }
}

#[cfg(test)]
mod tests {
    use super::*;

    #[test]
    fn a_seed_and_a_list_give_the_same_numbers_again_and_others_do_not() {
        let numbers = |seed, list| {
            let mut rng = Rng::of_list(seed, list);
            [rng.next(), rng.next(), rng.next()]
        };
        assert_eq!(numbers(5, 1), numbers(5, 1));
        assert_ne!(numbers(5, 1), numbers(5, 2));
        assert_ne!(numbers(5, 1), numbers(6, 1));
    }

    #[test]
    fn every_number_of_a_span_comes_and_none_outside() {
        let mut rng = Rng::of_list(1, 0);
        let mut seen = [0; 5];
        for _ in 0..1_000 {
            seen[usize::try_from(rng.between(-2, 2) + 2).unwrap()] += 1;
        }
        assert!(seen.iter().all(|&count| count > 100), "{seen:?}");
    }

    #[test]
    fn weights_are_kept() {
        let mut rng = Rng::of_list(1, 0);
        let mut seen = [0; 3];
        for _ in 0..10_000 {
            seen[rng.weighted(&[(90, 0), (10, 1), (0, 2)])] += 1;
        }
        assert!(seen[0] > 8_500 && seen[1] > 500 && seen[2] == 0, "{seen:?}");
        assert!((0..100).all(|_| rng.weighted(&[(0, 'a'), (1, 'b')]) == 'b'));
    }
}
