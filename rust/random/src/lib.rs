//! A repeatable source of numbers (splitmix64): one seed, one run.

#![forbid(unsafe_code)]
#![warn(missing_docs)]

use std::collections::BTreeSet;

/// The source. What it gives depends on its seed and on what was taken before.
///
/// ```
/// use random::Random;
/// let mut random = Random::new(1);
/// assert_eq!(random.next_u64(), 0x910A_2DEC_8902_5CC1);
/// assert!(random.below(7) < 7);
/// ```
pub struct Random(u64);

impl Random {
    /// The source that begins at `seed`.
    pub fn new(seed: u64) -> Random {
        Random(seed)
    }

    /// The next number.
    pub fn next_u64(&mut self) -> u64 {
        self.0 = self.0.wrapping_add(0x9E37_79B9_7F4A_7C15);
        let mut mixed = self.0;
        mixed = (mixed ^ (mixed >> 30)).wrapping_mul(0xBF58_476D_1CE4_E5B9);
        mixed = (mixed ^ (mixed >> 27)).wrapping_mul(0x94D0_49BB_1331_11EB);
        mixed ^ (mixed >> 31)
    }

    /// The next number's lower half, as a tag. It is not 0, which is nobody's tag.
    pub fn tag(&mut self) -> u32 {
        loop {
            match self.next_u64() as u32 {
                0 => continue,
                tag => return tag,
            }
        }
    }

    /// A number below `bound`, which is not 0.
    pub fn below(&mut self, bound: usize) -> usize {
        (self.next_u64() % bound as u64) as usize
    }

    /// A number from `low` to `high`, both included.
    pub fn within(&mut self, low: usize, high: usize) -> usize {
        low + self.below(high - low + 1)
    }

    /// So many different tags, ascending.
    pub fn tags(&mut self, count: usize) -> Vec<u32> {
        self.multiples(count, 1)
    }

    /// So many different multiples of `step`, ascending, none of them 0; there must be so many.
    pub fn multiples(&mut self, count: usize, step: u32) -> Vec<u32> {
        let mut tags = BTreeSet::new();
        while tags.len() < count {
            let tag = self.tag() / step * step;
            if tag != 0 {
                tags.insert(tag);
            }
        }
        tags.into_iter().collect()
    }

    /// Puts the items in another order.
    pub fn shuffle<T>(&mut self, items: &mut [T]) {
        for last in (1..items.len()).rev() {
            items.swap(last, self.below(last + 1));
        }
    }
}
