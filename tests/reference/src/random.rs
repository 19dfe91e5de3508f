//! A small seeded generator (splitmix64): the same seed gives the same sessions everywhere.

#[derive(Clone, Debug)]
pub struct Random {
    state: u64,
}

impl Random {
    pub fn new(seed: u64) -> Random {
        Random { state: seed }
    }

    /// The generator of one numbered part of a run, so that a part can be made again without those before it.
    pub fn of_part(seed: u64, part: u64) -> Random {
        let mut outer = Random::new(seed);
        let mut inner = Random::new(outer.draw() ^ part);
        Random::new(inner.draw())
    }

    pub fn draw(&mut self) -> u64 {
        self.state = self.state.wrapping_add(0x9E37_79B9_7F4A_7C15);
        let mut mixed = self.state;
        mixed = (mixed ^ (mixed >> 30)).wrapping_mul(0xBF58_476D_1CE4_E5B9);
        mixed = (mixed ^ (mixed >> 27)).wrapping_mul(0x94D0_49BB_1331_11EB);
        mixed ^ (mixed >> 31)
    }

    /// A number from 0 to `count - 1`.
    pub fn below(&mut self, count: usize) -> usize {
        assert!(count > 0, "nothing to draw from");
        (self.draw() % count as u64) as usize
    }

    /// A number from `low` to `high`, both included.
    pub fn between(&mut self, low: usize, high: usize) -> usize {
        low + self.below(high - low + 1)
    }

    pub fn byte(&mut self) -> u8 {
        self.draw() as u8
    }

    /// True in so many cases of a hundred.
    pub fn chance(&mut self, percent: usize) -> bool {
        self.below(100) < percent
    }

    pub fn pick<T: Copy>(&mut self, list: &[T]) -> T {
        list[self.below(list.len())]
    }

    /// One of the list, or nothing if the list is empty.
    pub fn pick_any<T: Copy>(&mut self, list: &[T]) -> Option<T> {
        (!list.is_empty()).then(|| self.pick(list))
    }

    pub fn shuffle<T>(&mut self, list: &mut [T]) {
        for last in (1..list.len()).rev() {
            list.swap(last, self.below(last + 1));
        }
    }
}

#[cfg(test)]
mod tests {
    use super::*;

    #[test]
    fn a_seed_gives_one_sequence_and_parts_differ() {
        let first = |mut random: Random| (0..20).map(|_| random.draw()).collect::<Vec<_>>();
        assert_eq!(first(Random::new(7)), first(Random::new(7)));
        assert_ne!(first(Random::of_part(7, 0)), first(Random::of_part(7, 1)));
        assert_ne!(first(Random::of_part(7, 0)), first(Random::of_part(8, 0)));
    }

    #[test]
    fn shuffling_keeps_every_element() {
        let mut list: Vec<usize> = (0..50).collect();
        Random::new(3).shuffle(&mut list);
        assert_ne!(list, (0..50).collect::<Vec<_>>());
        list.sort();
        assert_eq!(list, (0..50).collect::<Vec<_>>());
    }
}
