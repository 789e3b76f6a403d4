//! Groups of 0 to 33 tags in lists of one group: random and structured ones, ones whose candidate places
//! form a given graph, and chosen ones.

use model::placing::LARGEST_GROUP;
use model::tagless::image::GroupLine;
use random::Random;

use crate::groups::{
    filled_under, group, shaped, shapes, without_place_0, ALL_KINDS_OF_BITS, CLOSE_25, CLOSE_32,
    LAST_SEED, LOLLIPOP, PATH, PATH_TO_BE_MOVED_ALONG,
};
use crate::lists::{different, Case};
use crate::tally::Tally;
use crate::Size;

use super::{build, group_lines, rebuild};

/// Seed 0 serves them, and no word makes one of the two sequences that fill: the row of the third is that
/// of the two others together. Seed 2 is the first that has a word.
pub const ROWS_THAT_CANCEL_OUT: [u32; 3] = [19, 24, 43];

/// Seed 1 serves them, and no seed has a word for them: two, four, five and seven times 2^29.
pub const SERVED_WITHOUT_A_WORD: [u32; 4] = [2 << 29, 4 << 29, 5 << 29, 7 << 29];

/// 32 tags below 300 of which seed 2 is the first that has a word, 3,445,485,007, with bit 31.
pub const CLOSE_32_WITH_A_WORD: [u32; 32] = [
    3, 5, 8, 23, 28, 49, 56, 57, 58, 65, 69, 94, 106, 109, 113, 115, 118, 123, 124, 132, 142, 145,
    197, 219, 227, 231, 232, 240, 249, 260, 262, 266,
];

pub fn compare(tally: &mut Tally, random: &mut Random, size: &Size) {
    chosen(tally, random);
    for n in 0..=LARGEST_GROUP + 1 {
        for round in 0..size.words {
            for (kind, tags) in group(random, n).into_iter().chain(multiples(random, n)) {
                tally.kind(kind);
                one_group(tally, random, &tags);
            }
            for seed in [0, 1, random.below(100) as u32] {
                tally.kind("groups made from a sequence that fills");
                let tags = filled_under(random, n, seed);
                one_group(tally, random, &tags);
            }
            if round % 8 == 0 {
                for (kind, keys) in shapes(random, n) {
                    tally.kind(kind);
                    let (seed, tags) = shaped(random, &keys);
                    // The seed that they are made for is the last one tried, and not tried.
                    for limit in [seed + 1, seed.max(1)] {
                        build(tally, random, &Case::new(1, limit, tags.clone()));
                    }
                    one_group(tally, random, &tags);
                }
            }
        }
    }
}

/// Builds a list of one group with a limit that mostly suffices.
fn one_group(tally: &mut Tally, random: &mut Random, tags: &[u32]) {
    let limit = match tags.len() {
        0..=24 => [1_000, 65_536][random.below(2)],
        _ => [2_000, 2_000, 2_000, 65_536][random.below(4)],
    };
    rebuild(tally, random, &Case::new(1, limit, tags));
}

/// So many multiples of a power of two, whose rows leave the lower bits of the word without effect; and
/// tags that are the same but for such multiples.
pub fn multiples(random: &mut Random, n: usize) -> Vec<(&'static str, Vec<u32>)> {
    let shift = random.within(1, 31);
    let far = different(n, || (random.tag() >> shift) << shift);
    let few = random.within(20, 27) as u32;
    let first = random.below(64) as u32;
    let next = (1 + first..).map_while(|multiple| multiple.checked_mul(1 << few));
    let next = next.take(n).collect();
    let own = random.tag() >> 9;
    let same_below = different(n, || (random.tag() >> 23 << 23) | own);
    let step = 1 + random.below(1 << 26) as u32;
    let evenly = (1..=n as u32).map_while(|multiple| multiple.checked_mul(step));
    vec![
        ("multiples of a power of two", far),
        ("consecutive multiples of a power of two", next),
        ("tags with the same lower bits", same_below),
        ("evenly spaced tags", evenly.collect()),
        ("powers of two", different(n, || 1 << random.below(32))),
    ]
}

/// Groups with a known answer, which is asserted too, and chosen ones under all limits that matter.
fn chosen(tally: &mut Tally, random: &mut Random) {
    tally.kind("seeds that serve and have no word");
    for (limit, number) in [(1, 7), (2, 7), (3, 0), (65_536, 0)] {
        let case = Case::new(1, limit, ROWS_THAT_CANCEL_OUT);
        assert_eq!(rebuild(tally, random, &case) >> 32, number);
    }
    for limit in [1, 2, 9, 65_536] {
        let case = Case::new(1, limit, SERVED_WITHOUT_A_WORD);
        assert_eq!(rebuild(tally, random, &case) >> 32, 7);
    }
    tally.kind("chosen groups of 32 tags");
    for (tags, seed, word) in [
        (CLOSE_32_WITH_A_WORD, 2, 3_445_485_007),
        (CLOSE_32, 14, 2_595_810_485),
        (PATH, 776, 1_800_777_001),
        // The last seed there is.
        (LAST_SEED, 65_535, 148_139_306),
    ] {
        let line = GroupLine {
            start: 0,
            seed,
            word,
        };
        let taken = Case::new(1, seed + 1, tags);
        let (_, image) = build(tally, random, &taken);
        assert!(group_lines(&image).eq([line]));
        let refused = Case::new(1, seed, tags);
        assert_eq!(build(tally, random, &refused).0 >> 32, 7);
    }
    tally.kind("seeds that serve and have no word");
    // Sets of multiples of 2^28, of which many have seeds that serve and few have words.
    for set in (1u32..1 << 15).step_by(7) {
        let chosen = (1..16).filter(|multiple| set >> (multiple - 1) & 1 == 1);
        let tags: Vec<u32> = chosen.map(|multiple| multiple << 28).collect();
        build(tally, random, &Case::new(1, 16, tags));
    }
    tally.kind("groups chosen for placing");
    let without_place_0 = without_place_0();
    for tags in [
        &PATH[..],
        &PATH_TO_BE_MOVED_ALONG,
        &LOLLIPOP,
        &ALL_KINDS_OF_BITS,
        &CLOSE_25,
        &CLOSE_32,
        &LAST_SEED,
        &without_place_0,
    ] {
        for limit in [1, 2, 9, 65_535, 65_536] {
            rebuild(tally, random, &Case::new(1, limit, tags));
        }
    }
}
