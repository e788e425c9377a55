//! A small seeded source of numbers (splitmix64), the same everywhere.

pub struct Random {
    state: u64,
}

impl Random {
    pub fn new(seed: u64) -> Self {
        Random { state: seed }
    }

    /// A source of its own for each image, so that one image can be made again
    /// without those before it.
    pub fn for_image(seed: u64, index: usize) -> Self {
        let base = Random::new(seed).draw();
        let own = Random::new(base ^ index as u64).draw();
        Random::new(own)
    }

    pub fn draw(&mut self) -> u64 {
        self.state = self.state.wrapping_add(0x9E37_79B9_7F4A_7C15);
        let mut mixed = self.state;
        mixed = (mixed ^ (mixed >> 30)).wrapping_mul(0xBF58_476D_1CE4_E5B9);
        mixed = (mixed ^ (mixed >> 27)).wrapping_mul(0x94D0_49BB_1331_11EB);
        mixed ^ (mixed >> 31)
    }

    /// A number from 0 up to, but without, this bound, which isn't 0.
    pub fn below(&mut self, bound: usize) -> usize {
        (self.draw() % bound as u64) as usize
    }

    /// A number between these two, both included.
    pub fn between(&mut self, low: usize, high: usize) -> usize {
        low + self.below(high - low + 1)
    }

    pub fn chance(&mut self, per_mille: usize) -> bool {
        self.below(1000) < per_mille
    }

    pub fn pick<T: Copy>(&mut self, choices: &[T]) -> T {
        choices[self.below(choices.len())]
    }

    pub fn byte(&mut self) -> u8 {
        self.draw() as u8
    }

    pub fn shuffle<T>(&mut self, items: &mut [T]) {
        for last in (1..items.len()).rev() {
            items.swap(last, self.below(last + 1));
        }
    }
}

#[cfg(test)]
mod tests {
    use super::*;

    #[test]
    fn one_seed_gives_one_stream() {
        let mut first = Random::for_image(7, 3);
        let mut again = Random::for_image(7, 3);
        let mut other = Random::for_image(7, 4);
        let drawn = first.draw();
        assert_eq!(drawn, again.draw());
        assert_ne!(drawn, other.draw());
    }

    #[test]
    fn knows_the_published_first_number() {
        assert_eq!(Random::new(0).draw(), 0xE220_A839_7B1D_CDAF);
    }
}
