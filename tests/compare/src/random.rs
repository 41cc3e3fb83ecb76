//! SplitMix64: small, quick, and the same on every machine, so a seed replays a run.

const STEP: u64 = 0x9E37_79B9_7F4A_7C15;

pub struct Random(u64);

impl Random {
    /// Each case has its own numbers, so that one case can be replayed without those before it.
    pub fn for_case(seed: u64, case: u64) -> Self {
        Random(Random(seed).next() ^ Random(case).next().rotate_left(32))
    }

    pub fn next(&mut self) -> u64 {
        self.0 = self.0.wrapping_add(STEP);
        let mut mixed = self.0;
        mixed = (mixed ^ (mixed >> 30)).wrapping_mul(0xBF58_476D_1CE4_E5B9);
        mixed = (mixed ^ (mixed >> 27)).wrapping_mul(0x94D0_49BB_1331_11EB);
        mixed ^ (mixed >> 31)
    }

    pub fn byte(&mut self) -> u8 {
        (self.next() >> 56) as u8
    }

    /// 0 to `bound` - 1.
    pub fn below(&mut self, bound: usize) -> usize {
        (self.next() % bound as u64) as usize
    }

    /// `least` to `most`, both included.
    pub fn between(&mut self, least: usize, most: usize) -> usize {
        least + self.below(most - least + 1)
    }

    pub fn one_in(&mut self, bound: usize) -> bool {
        self.below(bound) == 0
    }

    pub fn pick<T: Copy>(&mut self, choices: &[T]) -> T {
        choices[self.below(choices.len())]
    }

    /// A place in `weights`, each as often as its weight says; none if all are 0.
    pub fn weighted<const N: usize>(&mut self, weights: &[usize; N]) -> Option<usize> {
        let total = weights.iter().sum();
        let mut drawn = if total == 0 { 0 } else { self.below(total) };
        for (place, weight) in weights.iter().enumerate() {
            if drawn < *weight {
                return Some(place);
            }
            drawn -= weight;
        }
        None
    }

    pub fn bytes(&mut self, length: usize) -> Vec<u8> {
        let mut bytes = vec![0; length];
        for eight in bytes.chunks_mut(8) {
            let number = self.next().to_le_bytes();
            eight.copy_from_slice(&number[..eight.len()]);
        }
        bytes
    }
}
