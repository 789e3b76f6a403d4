//! What came of the order of choices: groups in which several sequences have the fewest ones, and groups
//! that the lowest tag alone would fill otherwise.

use model::hash::place_of;
use model::placing::LARGEST_GROUP;

/// Answers that state a sequence, by what decides for it.
#[derive(Default, Clone, Copy, PartialEq, Eq, Debug)]
pub struct Choices {
    /// All of them, and those for groups of 32 tags.
    pub groups: u64,
    pub full: u64,
    /// Several sequences have the fewest ones, so that the lowest tag decides between them.
    pub equals: u64,
    pub full_equals: u64,
    /// The lowest tag alone, the order before document 02, §6, decides for another sequence.
    pub unlike: u64,
    pub full_unlike: u64,
}

impl Choices {
    /// Counts a group that this word fills under the seed, with the fewest ones.
    pub fn add(&mut self, tags: &[u32], seed: u32, word: u32) {
        let (mut equals, mut unlike) = (false, false);
        for_each_cycle(tags, seed, word, |cycle| {
            // Turned round, its tags have the other choices.
            equals |= 2 * (cycle & word).count_ones() == cycle.count_ones();
            // With one tag after the other from the lowest on, the lowest of a cycle has choice 0.
            unlike |= word >> cycle.trailing_zeros() & 1 == 1;
        });
        let full = u64::from(tags.len() == LARGEST_GROUP);
        self.groups += 1;
        self.full += full;
        self.equals += u64::from(equals);
        self.full_equals += full * u64::from(equals);
        self.unlike += u64::from(unlike);
        self.full_unlike += full * u64::from(unlike);
    }

    /// What came since an earlier count.
    pub fn since(&self, earlier: &Choices) -> Choices {
        Choices {
            groups: self.groups - earlier.groups,
            full: self.full - earlier.full,
            equals: self.equals - earlier.equals,
            full_equals: self.full_equals - earlier.full_equals,
            unlike: self.unlike - earlier.unlike,
            full_unlike: self.full_unlike - earlier.full_unlike,
        }
    }

    /// Prints the counts, and says whether each came.
    pub fn report(&self, of: &str) -> bool {
        let Choices {
            groups,
            full,
            equals,
            full_equals,
            unlike,
            full_unlike,
        } = *self;
        println!("            of the choices in {of}: {groups} groups, {full} of them of 32 tags");
        println!("            several sequences with the fewest ones: {equals}, {full_equals} of them of 32 tags; another one by the lowest tag alone: {unlike}, {full_unlike} of them of 32 tags");
        full_equals > 0 && full_unlike > 0
    }
}

/// The cycles of a group under a sequence that fills it, each as the bits of its tags. A tag can take its
/// other place only if the tag that stands there takes its own other place, and so on until a tag comes
/// again. All sequences that fill n tags on n places differ in whole cycles.
pub fn for_each_cycle(tags: &[u32], seed: u32, word: u32, mut found: impl FnMut(u32)) {
    let n = tags.len();
    let place = |tag: usize, choice: u32| place_of(n as u32, seed, choice & 1, tags[tag]) as usize;
    let mut standing = [0; LARGEST_GROUP];
    for tag in 0..n {
        standing[place(tag, word >> tag)] = tag;
    }
    let next = |tag: usize| standing[place(tag, !(word >> tag))];
    let mut met = 0u32;
    for first in 0..n {
        let mut way = 0u32;
        let mut tag = first;
        while (met | way) >> tag & 1 == 0 {
            way |= 1 << tag;
            tag = next(tag);
        }
        met |= way;
        // A way that comes to its own tag has come round a cycle.
        if way >> tag & 1 == 1 {
            let mut cycle = 0u32;
            while cycle >> tag & 1 == 0 {
                cycle |= 1 << tag;
                tag = next(tag);
            }
            found(cycle);
        }
    }
}
