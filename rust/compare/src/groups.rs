//! Groups of 0 to 33 tags: placing over the C boundary. Random and close-numbered ones, ones whose
//! candidate places form a given graph, and every refusal.

use model::hash::place_of;
use model::placing::LARGEST_GROUP;
use random::Random;

use crate::lists::{behind_0, different, FIVE_ON_FOUR_PLACES, WITHOUT_PLACE_2, WORKED};
use crate::tally::Tally;
use crate::Size;

/// Under seed 0, a path: the first tag has the place 0 to itself, each other tag the place of the one
/// before it and the next. All but the first take their second, so the word is 4,294,967,294.
pub const PATH: [u32; 32] = [
    89, 123, 157, 162, 164, 170, 188, 242, 328, 463, 546, 583, 618, 689, 703, 711, 735, 752, 803,
    880, 1009, 1142, 1164, 1196, 1326, 1339, 1399, 1469, 1556, 1618, 1681, 1705,
];

/// Under seed 0, the same path from its other end: all tags have their first places until the last
/// one comes, which has the place 0 alone and moves each of them: 31 evictions, word 2,147,483,647.
pub const PATH_TO_BE_MOVED_ALONG: [u32; 32] = [
    34, 102, 162, 164, 170, 188, 242, 328, 463, 546, 583, 618, 689, 703, 711, 735, 752, 803, 880,
    1009, 1142, 1164, 1196, 1326, 1339, 1399, 1469, 1556, 1618, 1681, 1705, 1775,
];

/// Under seed 0, a path of 30 places with a fork: the last tag's eviction goes down the path, turns
/// at the first tag, which has one place only, and comes back: 61 evictions, word 2,147,483,646.
pub const LOLLIPOP: [u32; 32] = [
    89, 123, 191, 196, 321, 353, 415, 457, 528, 529, 579, 661, 695, 700, 702, 708, 726, 814, 934,
    1061, 1154, 1166, 1236, 1323, 1385, 1427, 1553, 1554, 1578, 1595, 1615, 1636,
];

/// Served by seed 0 with a word that has ones and zeros in every byte, and bit 31: 2,407,770,217.
/// Four tags share both places with another one, and one has equal places.
pub const ALL_KINDS_OF_BITS: [u32; 32] = [
    44, 46, 64, 75, 105, 113, 152, 177, 227, 258, 288, 312, 341, 355, 356, 383, 430, 454, 474, 484,
    501, 522, 557, 590, 594, 626, 635, 652, 670, 675, 705, 721,
];

/// Served by seed 0 with the word 543,846,675; the lowest tag alone would decide for 2,758,436,883. In a
/// cycle of five there are two ones, or three if that of the last tag, bit 31, is counted; in three
/// cycles of two there is one either way, and the lowest tag decides. Two tags have equal places.
pub const FEWEST_SECOND_PLACES: [u32; 32] = [
    18, 38, 68, 107, 111, 128, 133, 159, 181, 197, 225, 229, 234, 272, 297, 332, 341, 368, 393,
    439, 468, 484, 518, 521, 535, 550, 579, 582, 593, 620, 636, 666,
];

/// The lowest tags of which seed 0 serves 25, and those of which it serves 32. The word of the 32 has
/// bit 31: 2,147,501,333.
pub const CLOSE_25: [u32; 25] = [
    1, 2, 3, 4, 5, 6, 7, 8, 9, 10, 11, 12, 13, 14, 15, 16, 17, 18, 19, 20, 21, 22, 26, 28, 30,
];
pub const CLOSE_32: [u32; 32] = [
    1, 2, 3, 4, 5, 6, 7, 8, 9, 10, 11, 12, 13, 14, 15, 16, 17, 18, 19, 20, 21, 22, 23, 24, 25, 26,
    28, 29, 32, 34, 43, 47,
];

/// Served by seed 65,535, the last there is, and by no other; the word is 2,463,874,191. About one
/// seed in 6,000 serves 32 random tags, so one such group in 50 million is of this kind.
pub const LAST_SEED: [u32; 32] = [
    31, 41, 521, 587, 1926, 2118, 2431, 2632, 2778, 3039, 3273, 3443, 3871, 4127, 4436, 4452, 4662,
    5245, 5281, 5333, 5421, 6130, 6933, 7620, 7632, 7697, 8132, 8484, 9305, 9764, 9771, 9791,
];

/// A tag that G takes to 1, so that a multiplier takes it to 4s + 2c + 1, which is below 2^18: it has
/// the place 0 under every seed, in every group of up to 32 tags.
const ALWAYS_AT_0: u32 = 244_002_641;

/// 32 tags that no seed serves, since place 0 is never reached: the 31 multiples of 2^27 have the
/// other places, one each, and 2^31 more than `ALWAYS_AT_0` has the place 16.
pub fn without_place_0() -> Vec<u32> {
    let mut tags: Vec<u32> = (1..32).map(|multiple| multiple << 27).collect();
    tags.push((1 << 31) + ALWAYS_AT_0);
    tags.sort_unstable();
    tags
}

/// 32 tags that no seed serves though every place is touched: the multiples of 2^27 but the first
/// reach all places but 0, and two tags have no other place than 0.
pub fn two_on_place_0() -> Vec<u32> {
    let mut tags: Vec<u32> = (2..32).map(|multiple| multiple << 27).collect();
    tags.extend([ALWAYS_AT_0, 2 * ALWAYS_AT_0]);
    tags.sort_unstable();
    tags
}

/// What the lent cell holds before.
const CELLS: [u32; 5] = [0, 1, 0xA5A5_5A5A, 1 << 31, u32::MAX];

/// The groups above, the worked values, and every refusal.
pub fn chosen(tally: &mut Tally, random: &mut Random) {
    constants(tally);
    refusals(tally, random);
    due_at_once(tally);
}

/// Groups of every size: all shapes of graphs, and random and close-numbered tags.
pub fn compare(tally: &mut Tally, random: &mut Random, size: &Size) {
    for n in 0..=LARGEST_GROUP + 1 {
        for _ in 0..size.shapes {
            for (kind, keys) in shapes(random, n) {
                tally.kind(kind);
                made(tally, random, &keys);
            }
            tally.kind("groups made from a sequence that fills");
            planted(tally, random, n);
        }
        for _ in 0..size.groups {
            for (kind, tags) in group(random, n) {
                tally.kind(kind);
                tight(tally, random, &tags);
            }
        }
    }
}

/// So many tags, drawn in several ways.
pub fn group(random: &mut Random, n: usize) -> Vec<(&'static str, Vec<u32>)> {
    let count = n as u32;
    let first = random.tag().min(u32::MAX - 8 * count);
    let low = 1 + random.below(10_000) as u32;
    let mut last = first;
    let almost = different(n, || {
        last += 1 + random.below(8).saturating_sub(5) as u32;
        last
    });
    let near = different(n, || low + random.below(8 * n) as u32);
    vec![
        ("random groups", different(n, || random.tag())),
        ("consecutive tags", (first..first + count).collect()),
        ("consecutive tags", (low..low + count).collect()),
        ("almost consecutive tags", almost),
        ("tags close to each other", near),
    ]
}

/// Places a group with the greatest limit, and where a seed is found with the least limit that
/// suffices and with one less.
fn tight(tally: &mut Tally, random: &mut Random, tags: &[u32]) {
    let (answer, _) = place(tally, random, tags, 65_536);
    if answer >> 32 == 0 {
        for limit in [answer as u32 + 1, answer as u32] {
            place(tally, random, tags, limit);
        }
    }
}

/// Places a group, with any number in the cell.
fn place(tally: &mut Tally, random: &mut Random, tags: &[u32], limit: u32) -> (u64, u32) {
    let cell = random.next_u64() as u32;
    tally.place(tags, limit, cell)
}

/// Groups with a known answer, which is asserted too.
fn constants(tally: &mut Tally) {
    tally.kind("groups of 32 made for seed 0");
    for (tags, word) in [
        (PATH, 4_294_967_294),
        (PATH_TO_BE_MOVED_ALONG, 2_147_483_647),
        (LOLLIPOP, 2_147_483_646),
        (ALL_KINDS_OF_BITS, 2_407_770_217),
        (CLOSE_32, 2_147_501_333),
        (FEWEST_SECOND_PLACES, 543_846_675),
    ] {
        for limit in [1, 2, 65_536] {
            for cell in CELLS {
                assert_eq!(tally.place(&tags, limit, cell), (0, word));
            }
        }
    }
    tally.kind("the group that the last seed serves");
    for cell in [0, u32::MAX] {
        let served = tally.place(&LAST_SEED, 65_536, cell);
        assert_eq!(served, (65_535, 2_463_874_191));
        let refused = tally.place(&LAST_SEED, 65_535, cell);
        assert_eq!(refused, (7 << 32, cell));
    }
    tally.kind("groups that no seed serves");
    for tags in [
        &WITHOUT_PLACE_2[..],
        &FIVE_ON_FOUR_PLACES,
        &without_place_0(),
        &two_on_place_0(),
    ] {
        for limit in [1, 2, 65_536] {
            assert_eq!(tally.place(tags, limit, 77), (7 << 32, 77));
        }
    }
    tally.kind("worked values and traps");
    for (limit, tags) in WORKED {
        for cell in CELLS {
            tally.place(tags, *limit, cell);
        }
    }
}

/// Each refusal of placing, at its limits and one step before.
fn refusals(tally: &mut Tally, random: &mut Random) {
    for cell in CELLS {
        tally.kind("ranges of L");
        for tags in [&[][..], &[7], &[1, 3], &PATH] {
            for limit in [0, 1, 2, 65_535, 65_536, 65_537, 99_999, 1 << 31, u32::MAX] {
                tally.place(tags, limit, cell);
            }
        }
        tally.kind("32 tags and more");
        for count in [31, 32, 33, 34, 48, 64, 4_097] {
            let tags = different(count, || random.tag());
            for limit in [1, 9] {
                tally.place(&tags, limit, cell);
            }
        }
        tally.kind("tag 0 in a group");
        for count in [0, 1, 2, 24, 30, 31] {
            let tags = different(count, || random.tag());
            for limit in [1, 65_536] {
                tally.place(&behind_0(&tags), limit, cell);
            }
        }
        // 6 at every index, by an equal tag, a lower one and 0; of two the first is named.
        tally.kind("groups that do not ascend");
        for count in [2, 3, 25, 31, 32] {
            let tags = different(count, || random.tag());
            for index in 1..count {
                for lower in [tags[index - 1], tags[0], 0] {
                    let mut changed = tags.clone();
                    changed[index] = lower;
                    tally.place(&changed, 9, cell);
                    changed[count - 1] = 0;
                    tally.place(&changed, 9, cell);
                }
            }
        }
        tally.kind("limits too low for any seed");
        for tags in [&[1, 3][..], &LAST_SEED, &WITHOUT_PLACE_2, &two_on_place_0()] {
            for limit in [1, 2, 9] {
                tally.place(tags, limit, cell);
            }
        }
    }
}

/// Two refusals due at once, for each pair of placing's: the first in the order written decides.
fn due_at_once(tally: &mut Tally) {
    tally.kind("several conditions at once");
    let ascending: Vec<u32> = (1..=33).collect();
    let descending: Vec<u32> = (1..=33).rev().collect();
    let mut equal_at_the_end = ascending.clone();
    equal_at_the_end[32] = 32;
    let lists = [
        // 5; 5 and 6; 5 and 17; 5, 6 and 17.
        ascending.clone(),
        descending.clone(),
        equal_at_the_end.clone(),
        vec![5; 33],
        (0..33).collect(),
        behind_0(&descending),
        vec![0; 33],
        // 6 alone, and where 17 and 7 would be due.
        descending[1..].to_vec(),
        equal_at_the_end[1..].to_vec(),
        vec![0; 32],
        behind_0(&equal_at_the_end[2..]),
        vec![0, 0],
        vec![0, 13, 13],
        vec![7, 0],
        vec![5, 5],
        // 17 alone, and where 7 would be due: 0 and 13 have the place 0 only, under seed 0.
        vec![0],
        vec![0, 13],
        vec![0, 1_073_741_824, 3_221_225_472],
        (0..32).collect(),
        behind_0(&two_on_place_0()[1..]),
        // 7.
        ascending[..32].to_vec(),
        vec![1, 3],
    ];
    for tags in lists {
        for limit in [0, 1, 2, 65_537, u32::MAX] {
            for cell in CELLS {
                tally.place(&tags, limit, cell);
            }
        }
    }
}

/// A tag's candidate places, that of choice 0 first.
pub type Key = [usize; 2];

/// A path from the place 0, which its first tag has to itself.
pub fn path(n: usize) -> Vec<Key> {
    (0..n).map(|i| [i.saturating_sub(1), i]).collect()
}

/// The path from its other end: the last tag, with the place 0 alone, moves all others.
fn path_to_be_moved_along(n: usize) -> Vec<Key> {
    let mut keys: Vec<Key> = (1..n).map(|i| [i - 1, i]).collect();
    keys.extend((n > 0).then_some([0, 0]));
    keys
}

pub fn cycle(n: usize) -> Vec<Key> {
    (0..n).map(|i| [i, (i + 1) % n]).collect()
}

/// A cycle whose free place is in the middle when the last tag comes, with both its places taken.
fn cycle_closed_far_from_its_gap(n: usize) -> Vec<Key> {
    let mut keys = cycle(n);
    for key in keys.iter_mut().skip(n / 2) {
        key.swap(0, 1);
    }
    keys
}

/// A path that ends in a fork: 2(n - 3) + 3 evictions, of the 2(n - 1) + 1 that there may be.
fn lollipop(n: usize) -> Vec<Key> {
    if n < 4 {
        return path(n);
    }
    let mut keys = path(n - 2);
    keys.extend([[n - 2, n - 1], [n - 2, n - 3]]);
    keys
}

/// Two tags on the same two places, again and again; an odd one has a place to itself.
pub fn double_edges(n: usize) -> Vec<Key> {
    (0..n)
        .map(|i| [i / 2 * 2, (i / 2 * 2 + 1).min(n - 1)])
        .collect()
}

/// Every tag has a place to itself.
fn loops(n: usize) -> Vec<Key> {
    (0..n).map(|i| [i, i]).collect()
}

/// All tags share one place.
fn star(n: usize) -> Vec<Key> {
    (0..n).map(|i| [0, i]).collect()
}

/// A function from places to places: each part has one cycle.
pub fn function(random: &mut Random, n: usize) -> Vec<Key> {
    (0..n).map(|place| [place, random.below(n)]).collect()
}

/// Parts of one to eight tags, each a shape of its own.
pub fn several_parts(random: &mut Random, n: usize) -> Vec<Key> {
    let mut keys = Vec::new();
    while keys.len() < n {
        let from = keys.len();
        let part = random.within(1, 8).min(n - from);
        let shape = [path, path_to_be_moved_along, cycle, lollipop, star][random.below(5)];
        keys.extend(shape(part).iter().map(|key| key.map(|place| from + place)));
    }
    keys
}

/// Three tags share two places; a path reaches all others, so that the seed is not dropped early.
fn too_many_tags(n: usize) -> Vec<Key> {
    let mut keys: Vec<Key> = vec![[0, 1], [1, 0], [0, 1]];
    keys.extend((3..n).map(|i| [i - 1, i]));
    keys.truncate(if n < 3 { 0 } else { n });
    keys
}

/// Each shape as it is, with its places renamed, and with its tags in another order and some pairs of
/// places turned round too.
pub fn shapes(random: &mut Random, n: usize) -> Vec<(&'static str, Vec<Key>)> {
    let mut all = vec![
        ("paths", path(n)),
        ("paths to be moved along", path_to_be_moved_along(n)),
        ("cycles", cycle(n)),
        ("cycles", cycle_closed_far_from_its_gap(n)),
        ("lollipops", lollipop(n)),
        ("double edges", double_edges(n)),
        ("loops", loops(n)),
        ("stars", star(n)),
        ("several parts", several_parts(random, n)),
        ("functions", function(random, n)),
        ("parts with too many tags", too_many_tags(n)),
    ];
    for index in 0..all.len() {
        let (kind, keys) = all[index].clone();
        let mut names: Vec<usize> = (0..n).collect();
        random.shuffle(&mut names);
        let mut renamed: Vec<Key> = keys.iter().map(|key| key.map(|at| names[at])).collect();
        all.push((kind, renamed.clone()));
        random.shuffle(&mut renamed);
        for key in &mut renamed {
            key.swap(0, random.below(2));
        }
        all.push((kind, renamed));
    }
    all
}

/// Places a group that has these candidate places under some seed, with L so that this seed is the
/// last one tried, with one less, and with the greatest.
fn made(tally: &mut Tally, random: &mut Random, keys: &[Key]) {
    let (seed, tags) = shaped(random, keys);
    for limit in [seed + 1, seed, 65_536] {
        place_made(tally, random, &tags, limit, seed);
    }
}

/// A group that has these candidate places under a seed, and the seed.
pub fn shaped(random: &mut Random, keys: &[Key]) -> (u32, Vec<u32>) {
    // Under a seed s each place of choice 0 goes with about 4s + 3 places of choice 1, so from n / 8
    // on every pair has tags. The higher the seed, the more often a lower one serves a small group.
    let seed = (keys.len() / 4 + random.below(2)) as u32;
    let from = 1 + random.below(1 << 30) as u32;
    (seed, tags_with(keys, seed, from))
}

/// Ascending tags with these candidate places under the seed: each the lowest above the one before.
fn tags_with(keys: &[Key], seed: u32, from: u32) -> Vec<u32> {
    let n = keys.len() as u32;
    let mut tag = from;
    keys.iter()
        .map(|key| {
            let key = key.map(|place| place as u32);
            tag = (tag + 1..)
                .find(|&tag| [0, 1].map(|choice| place_of(n, seed, choice, tag)) == key)
                .expect("every pair of places has tags");
            tag
        })
        .collect()
}

/// Groups that are filled under a seed by a sequence chosen beforehand, also under seed 0.
fn planted(tally: &mut Tally, random: &mut Random, n: usize) {
    for seed in [0, 0, 1, random.below(100) as u32] {
        let tags = filled_under(random, n, seed);
        for limit in [seed + 1, 65_536] {
            place_made(tally, random, &tags, limit, seed);
        }
    }
}

/// A group that a sequence fills under the seed: each tag has its place in it by one choice, and by the
/// other any place. This can be done for every seed.
pub fn filled_under(random: &mut Random, n: usize, seed: u32) -> Vec<u32> {
    let mut places: Vec<u32> = (0..n as u32).collect();
    random.shuffle(&mut places);
    let mut tag = random.below(1 << 30) as u32;
    places
        .iter()
        .map(|&place| {
            let choice = random.below(2) as u32;
            tag = (tag + 1..)
                .find(|&tag| place_of(n as u32, seed, choice, tag) == place)
                .expect("every place has tags");
            tag
        })
        .collect()
}

fn place_made(tally: &mut Tally, random: &mut Random, tags: &[u32], limit: u32, seed: u32) {
    let (answer, _) = place(tally, random, tags, limit);
    tally.made_for(answer, seed);
}
