//! The lists that are built, checked and looked up in, and the groups that are placed.

use model::hash::{group_of, place_of};
use model::list_text;
use model::placing::{serves, LARGEST_GROUP};
use random::Random;
use std::collections::HashSet;
use std::iter;

pub struct Case {
    /// The name that `--count` takes.
    pub name: &'static str,
    pub title: &'static str,
    pub groups: u32,
    pub tags: Vec<u32>,
}

/// Random groups of one size, each placed by itself.
pub struct Groups {
    /// The name that `--count` takes.
    pub name: &'static str,
    pub title: &'static str,
    pub groups: Vec<Vec<u32>>,
}

/// All seeds are allowed in every case.
pub const LIMIT: u32 = 65_536;

/// The most tags of a group in the cases of 171 groups, just enough for 4,096 in all. A group can hold
/// more; these lists stay as they are, so that times and counts can be compared with earlier ones.
const SHARE_OF_171: usize = 24;

impl Case {
    pub fn text(&self) -> Vec<u8> {
        list_text(self.groups, LIMIT, &self.tags)
    }

    /// As many tags that are not in the list, in random order.
    pub fn absent(&self, random: &mut Random) -> Vec<u32> {
        let mut absent = Vec::new();
        while absent.len() < self.tags.len() {
            let tag = random.tag();
            if self.tags.binary_search(&tag).is_err() {
                absent.push(tag);
            }
        }
        absent
    }

    pub fn shuffled(&self, random: &mut Random) -> Vec<u32> {
        let mut tags = self.tags.clone();
        random.shuffle(&mut tags);
        tags
    }

    /// The sizes of the smallest and of the largest group.
    pub fn sizes(&self) -> (usize, usize) {
        let mut sizes = vec![0; self.groups as usize];
        for &tag in &self.tags {
            sizes[group_of(tag, self.groups) as usize] += 1;
        }
        let least = sizes.iter().min().expect("there is a group");
        let most = sizes.iter().max().expect("there is a group");
        (*least, *most)
    }
}

/// Lists that are built.
pub fn built() -> Vec<Case> {
    let case = |name, title, groups, tags| Case {
        name,
        title,
        groups,
        tags,
    };
    vec![
        case(
            "512-random",
            "4,096 random tags, B = 512",
            512,
            random(1, 4_096, 512, LARGEST_GROUP),
        ),
        case(
            "512-walked",
            "4,096 consecutive tags, B = 512",
            512,
            walked(4_096, 512, LARGEST_GROUP),
        ),
        case(
            "171-random",
            "4,096 random tags, B = 171",
            171,
            random(2, 4_096, 171, SHARE_OF_171),
        ),
        case(
            "171-walked",
            "4,096 almost consecutive tags, B = 171",
            171,
            walked(4_096, 171, SHARE_OF_171),
        ),
        // All groups are full.
        case(
            "128-random",
            "4,096 random tags, B = 128",
            128,
            random(6, 4_096, 128, LARGEST_GROUP),
        ),
        case(
            "128-walked",
            "4,096 almost consecutive tags, B = 128",
            128,
            walked(4_096, 128, LARGEST_GROUP),
        ),
        case(
            "32-random",
            "256 random tags, B = 32",
            32,
            random(3, 256, 32, LARGEST_GROUP),
        ),
    ]
}

/// Lists that are planned, and written under their plan: the random ones of 4,096 tags.
pub fn planned() -> Vec<Case> {
    let mut cases = built();
    cases.retain(|case| ["512-random", "171-random", "128-random"].contains(&case.name));
    cases
}

/// Lists that are printed: those of 512 groups.
pub fn printed() -> Vec<Case> {
    let mut cases = built();
    cases.retain(|case| case.groups == 512);
    cases
}

/// One group that no seed serves, so that all of them are tried.
///
/// The tags are multiples of 2^28, 2^27 or 2^26, so their places under a seed depend on the seed's
/// lowest two, three or four bits only: four, eight or sixteen seeds stand for all. In the cases
/// "dropped" the occupancy word drops every seed; in the cases "evicted" it drops none, and a chain
/// of evictions ends the test of each.
pub fn unserved() -> Vec<Case> {
    let case = |name, title, shift, multiples: &[u32]| Case {
        name,
        title,
        groups: 1,
        tags: multiples.iter().map(|multiple| multiple << shift).collect(),
    };
    let first_24: Vec<u32> = (1..=24).collect();
    let no_fourth: Vec<u32> = (1..)
        .filter(|multiple| multiple % 4 != 0)
        .take(32)
        .collect();
    vec![
        case(
            "8-dropped",
            "8 tags that no seed serves, all seeds dropped early",
            28,
            &[1, 2, 3, 4, 6, 8, 9, 11],
        ),
        case(
            "8-evicted",
            "8 tags that no seed serves, none dropped early",
            28,
            &[3, 5, 8, 9, 10, 11, 13, 14],
        ),
        case(
            "24-dropped",
            "24 tags that no seed serves, all seeds dropped early",
            27,
            &first_24,
        ),
        case(
            "24-evicted",
            "24 tags that no seed serves, none dropped early",
            27,
            &[
                3, 6, 7, 9, 10, 11, 12, 13, 14, 15, 17, 18, 19, 21, 22, 23, 24, 25, 26, 27, 28, 29,
                30, 31,
            ],
        ),
        case(
            "32-dropped",
            "32 tags that no seed serves, all seeds dropped early",
            26,
            &no_fourth,
        ),
        case(
            "32-evicted",
            "32 tags that no seed serves, none dropped early",
            26,
            &[
                1, 2, 3, 4, 5, 9, 13, 15, 16, 17, 18, 21, 22, 25, 27, 29, 31, 32, 33, 34, 37, 41,
                42, 45, 47, 49, 52, 53, 57, 58, 61, 63,
            ],
        ),
    ]
}

/// Groups that are placed; some seed serves each.
pub fn placed() -> Vec<Groups> {
    let mut random = Random::new(7);
    let mut groups = |name, title, count, size| Groups {
        name,
        title,
        groups: iter::repeat_with(|| random.tags(size))
            .take(count)
            .collect(),
    };
    vec![
        groups("8", "a group of 8 random tags, mean of 1,000", 1_000, 8),
        groups("24", "a group of 24 random tags, mean of 1,000", 1_000, 24),
        groups("32", "a group of 32 random tags, mean of 100", 100, 32),
    ]
}

/// Groups, each with a limit, of which every seed below it is tested.
pub struct Tested {
    pub title: String,
    pub groups: Vec<(Vec<u32>, u32)>,
}

impl Tested {
    /// The number of seeds, of all groups together.
    pub fn seeds(&self) -> usize {
        self.groups.iter().map(|&(_, limit)| limit as usize).sum()
    }

    /// How many of them are not dropped early.
    pub fn passing(&self) -> usize {
        let passing = |(tags, limit): &(Vec<u32>, u32)| passing(tags, *limit);
        self.groups.iter().map(passing).sum()
    }
}

/// The sizes of groups for which seeds are tested, with how many groups.
const TESTED: [(usize, usize); 4] = [(8, 1_000), (16, 200), (24, 40), (32, 20)];

/// The most seeds of a group that are tested.
const MOST_TESTED: u32 = 512;

/// Random groups whose least seed is above 0, with it as the limit, or a lower one: no seed serves.
pub fn failing() -> Vec<Tested> {
    let mut random = Random::new(11);
    let mut failing = |(n, count): (usize, usize)| {
        let drawn = iter::repeat_with(|| random.tags(n));
        let limited = drawn.map(|tags| {
            let passed_over = (0..MOST_TESTED).take_while(|&seed| !serves(&tags, seed));
            let limit = passed_over.count() as u32;
            (tags, limit)
        });
        Tested {
            title: format!("do not serve, {n} random tags"),
            groups: limited
                .filter(|&(_, limit)| limit > 0)
                .take(count)
                .collect(),
        }
    };
    TESTED.map(&mut failing).into()
}

/// The groups that no seed serves and of which none is dropped early, with a limit that is soon reached.
pub fn failing_by_eviction() -> Vec<Tested> {
    let mut cases = unserved();
    cases.retain(|case| case.name.ends_with("evicted"));
    let tested = |case: &Case| Tested {
        title: format!("do not serve, {} tags, none dropped", case.tags.len()),
        groups: vec![(case.tags.clone(), MOST_TESTED)],
    };
    cases.iter().map(tested).collect()
}

/// Random groups that seed 0 serves, with 1 as the limit.
pub fn serving() -> Vec<Tested> {
    let mut random = Random::new(12);
    let mut serving = |n: usize| {
        let drawn = iter::repeat_with(|| random.tags(n));
        let served = drawn.filter(|tags| serves(tags, 0)).map(|tags| (tags, 1));
        Tested {
            title: format!("serve, {n} random tags"),
            groups: served.take(100).collect(),
        }
    };
    TESTED.map(|(n, _)| serving(n)).into()
}

/// Of the tags 1, 2, 3, … those whose group has fewer than `most` so far.
pub fn walked(count: usize, groups: u32, most: usize) -> Vec<u32> {
    with_room(1.., count, groups, most)
}

/// Random tags, none of them in a group that has `most` already.
fn random(seed: u64, count: usize, groups: u32, most: usize) -> Vec<u32> {
    let mut random = Random::new(seed);
    let mut drawn = HashSet::new();
    let tags = iter::repeat_with(|| random.tag()).filter(|&tag| drawn.insert(tag));
    let mut tags = with_room(tags, count, groups, most);
    tags.sort_unstable();
    tags
}

/// The first `count` tags without those whose group has `most` already.
fn with_room(tags: impl Iterator<Item = u32>, count: usize, groups: u32, most: usize) -> Vec<u32> {
    let mut sizes = vec![0; groups as usize];
    let has_room = |tag: &u32| {
        let size = &mut sizes[group_of(*tag, groups) as usize];
        let room = *size < most;
        *size += usize::from(room);
        room
    };
    tags.filter(has_room).take(count).collect()
}

/// How many of the seeds below a limit the occupancy word lets pass.
pub fn passing(tags: &[u32], limit: u32) -> usize {
    let n = tags.len() as u32;
    let touches_all = |&seed: &u32| {
        let mut word = 0u32;
        for &tag in tags {
            for choice in 0..2 {
                word |= 1 << place_of(n, seed, choice, tag);
            }
        }
        word.count_ones() == n
    };
    (0..limit).filter(touches_all).count()
}

#[cfg(test)]
mod tests {
    use super::{
        built, failing, failing_by_eviction, passing, planned, serving, unserved, LARGEST_GROUP,
        LIMIT,
    };
    use crate::plain::place_group;

    #[test]
    fn the_groups_of_128_are_full() {
        let mut cases = built();
        cases.retain(|case| case.groups == 128);
        assert_eq!(cases.len(), 2);
        for case in cases {
            assert_eq!(
                case.sizes(),
                (LARGEST_GROUP, LARGEST_GROUP),
                "{}",
                case.title
            );
        }
    }

    #[test]
    fn lists_of_4_096_tags_are_planned_in_512_171_and_128_groups() {
        let cases = planned();
        assert!(cases.iter().all(|case| case.tags.len() == 4_096));
        let groups: Vec<u32> = cases.iter().map(|case| case.groups).collect();
        assert_eq!(groups, [512, 171, 128]);
    }

    #[test]
    fn no_seed_serves_these_groups_and_all_seeds_are_dropped_early_or_none() {
        for case in unserved() {
            assert!(!case.tags.contains(&0), "{}", case.title);
            let answer = place_group(&case.tags, LIMIT, &mut [0]);
            assert_eq!(answer, 7 << 32, "{}", case.title);
            let dropped = case.name.ends_with("dropped");
            let passing_due = if dropped { 0 } else { LIMIT as usize };
            assert_eq!(passing(&case.tags, LIMIT), passing_due, "{}", case.title);
        }
    }
    #[test]
    fn placing_tries_exactly_the_seeds_that_are_tested() {
        for tested in failing().iter().chain(&failing_by_eviction()) {
            for (tags, limit) in &tested.groups {
                assert_eq!(place_group(tags, *limit, &mut [0]), 7 << 32);
            }
        }
        for tested in failing_by_eviction() {
            assert_eq!(tested.passing(), tested.seeds(), "{}", tested.title);
        }
        for tested in serving() {
            assert_eq!(tested.passing(), tested.seeds(), "{}", tested.title);
            for (tags, limit) in &tested.groups {
                assert_eq!((place_group(tags, *limit, &mut [0]), *limit), (0, 1));
            }
        }
    }
}
