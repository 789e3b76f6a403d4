//! Document 02, §5: the words of the index without tags. The model's method, by columns, is held against
//! all words of a few bits, and against all sequences that fill with the rows solved for each of them.

use crate::common::{
    fills, group_without_seed, places, two_on_place_0, FIVE_ON_FOUR_PLACES, WITHOUT_PLACE_2,
};
use model::hash::place_of;
use model::place_group;
use model::placing::{self, first_seed, serves};
use model::tagless::{choice_of, first_seed_and_word, least_word, row_of};
use random::Random;
use std::collections::BTreeSet;

/// Whether the word makes the places of the group all different under the seed.
fn makes_different(tags: &[u32], seed: u32, word: u32) -> bool {
    let n = tags.len() as u32;
    let mut taken = 0u32;
    tags.iter().all(|&tag| {
        let place = place_of(n, seed, choice_of(seed, word, tag), tag);
        let free = taken >> place & 1 == 0;
        taken |= 1 << place;
        free
    })
}

/// The least of these words that makes the places all different, found by trying all of them.
fn least_of(words: impl Iterator<Item = u32>, tags: &[u32], seed: u32) -> Option<u32> {
    words
        .into_iter()
        .find(|&word| makes_different(tags, seed, word))
}

/// All sequences that fill the group, found by taking the tags in turn, or nothing if there are more than
/// `most`.
fn sequences(pairs: &[[u32; 2]], most: usize) -> Option<Vec<u32>> {
    let mut begun = vec![(0u32, 0u32)];
    for (index, pair) in pairs.iter().enumerate() {
        let mut longer = Vec::new();
        for (choices, taken) in begun {
            for (choice, place) in [0, 1].into_iter().zip(pair) {
                let place = 1 << place;
                if taken & place == 0 {
                    longer.push((choices | choice << index, taken | place));
                }
            }
        }
        begun = longer;
        if begun.len() > most {
            return None;
        }
    }
    Some(begun.into_iter().map(|(choices, _)| choices).collect())
}

/// The least word that makes just this sequence, with the rows as equations: bit for bit from the
/// highest, 0 if a word is left then, otherwise 1.
fn least_for_sequence(rows: &[u32], choices: u32) -> Option<u32> {
    let mut equations: Vec<(u32, u32)> = rows
        .iter()
        .enumerate()
        .map(|(index, &row)| (row, choices >> index & 1))
        .collect();
    let mut word = 0;
    if !have_a_word(&equations) {
        return None;
    }
    for bit in (0..32).rev() {
        equations.push((1 << bit, 0));
        if !have_a_word(&equations) {
            equations.pop();
            equations.push((1 << bit, 1));
            word |= 1 << bit;
        }
    }
    Some(word)
}

/// Whether some word has, for each row, this parity of the ones in row AND word: no rows that cancel out
/// have parities that do not.
fn have_a_word(equations: &[(u32, u32)]) -> bool {
    let mut left = equations.to_vec();
    while let Some((row, parity)) = left.pop() {
        if row == 0 {
            if parity == 1 {
                return false;
            }
            continue;
        }
        let lowest = row & row.wrapping_neg();
        for other in &mut left {
            if other.0 & lowest != 0 {
                *other = (other.0 ^ row, other.1 ^ parity);
            }
        }
    }
    true
}

/// The least word over all sequences that fill, or nothing if these are too many to be tried.
fn least_by_sequences(tags: &[u32], seed: u32) -> Option<Option<u32>> {
    let rows: Vec<u32> = tags.iter().map(|&tag| row_of(seed, tag)).collect();
    let filling = sequences(&places(tags, seed), 512)?;
    let words = filling
        .iter()
        .filter_map(|&choices| least_for_sequence(&rows, choices));
    Some(words.min())
}

/// Tags of which all are multiples of 2^shift: the rows are too, so the bits below have no effect, and
/// the words without them are all that matter.
fn words_above(shift: u32) -> impl Iterator<Item = u32> {
    (0..1u32 << (32 - shift)).map(move |high| high << shift)
}

#[test]
fn a_row_is_a_product_by_k_and_a_choice_the_parity_of_its_ones() {
    assert_eq!(row_of(0, 1), 2_246_822_507);
    assert_eq!(row_of(0, 2), 2_246_822_507u32.wrapping_mul(2));
    assert_eq!(row_of(1, 1), 2_246_822_507u32.wrapping_mul(3));
    assert_eq!(
        row_of(65_535, u32::MAX),
        131_071u32.wrapping_mul(2_246_822_507).wrapping_neg()
    );
    // Hexadecimal 85EBCA6B: all its ones are 18, and of its lowest byte, 6B, five.
    assert_eq!(choice_of(0, u32::MAX, 1), 0);
    assert_eq!(choice_of(0, 0xFF, 1), 1);
    assert_eq!(choice_of(0, 0b100, 1), 0);
    assert_eq!(choice_of(0, 1, 1), 1);
    assert_eq!(choice_of(0, 0b11, 1), 0);
    assert_eq!(choice_of(0, 1 << 31, 1), 1);
    // No word gives tag 0 another choice than 0, and word 0 gives it to every tag.
    assert_eq!(choice_of(7, u32::MAX, 0), 0);
    assert_eq!(choice_of(7, 0, u32::MAX), 0);
}

#[test]
fn small_groups_have_the_seeds_and_words_that_are_worked_out() {
    for (tags, taken) in [
        (&[][..], (0, 0)),
        (&[1], (0, 0)),
        (&[u32::MAX], (0, 0)),
        (&[1, 2], (0, 0)),
        (&[1, 3], (1, 1)),
        (&[599, 1_193], (0, 2)),
        (&[13, 57, 61], (1, 1)),
    ] {
        assert_eq!(first_seed_and_word(tags, 65_536), Some(taken));
        let (seed, word) = taken;
        assert!(makes_different(tags, seed, word));
        assert_eq!(first_seed_and_word(tags, seed + 1), Some(taken));
        assert_eq!(first_seed_and_word(tags, seed), None);
    }
    // Under seed 0 the places of 599 and of 1,193 are 0 and 1, so their choices have to differ. Their
    // rows are the same in the lowest bit, and not in the next.
    assert_eq!(places(&[599, 1_193], 0), [[0, 1], [0, 1]]);
    assert!(fills(&[599, 1_193], 0, 0b01) && fills(&[599, 1_193], 0, 0b10));
    assert_eq!([599, 1_193].map(|tag| row_of(0, tag) & 0b11), [0b01, 0b11]);
}

#[test]
fn an_empty_group_has_word_0_under_every_seed() {
    for seed in [0, 1, 65_535] {
        assert_eq!(least_word(&[], seed), Some(0));
    }
    assert_eq!(first_seed_and_word(&[], 1), Some((0, 0)));
}

#[test]
fn all_words_of_14_bits_say_the_same_of_small_groups() {
    let mut random = Random::new(51);
    let (mut without, mut greater) = (0, 0);
    for n in 1..=9 {
        for round in 0..12 {
            let step = 1 << random.below(24);
            let tags = match round % 3 {
                0 => random.tags(n),
                1 => (1 + round as u32..).take(n).collect(),
                _ => random.multiples(n, step),
            };
            for seed in (0..12).chain([9_999, 65_535]) {
                let found = least_word(&tags, seed);
                let low = least_of(0..1 << 14, &tags, seed);
                assert_eq!(found.filter(|&word| word < 1 << 14), low, "{tags:?} {seed}");
                without += u64::from(found.is_none());
                greater += u64::from(found.is_some_and(|word| word >= 1 << 14));
            }
        }
    }
    assert!(without > 100 && greater > 9, "{without} {greater}");
}

#[test]
fn all_words_say_the_same_of_multiples_of_a_power_of_two() {
    let mut random = Random::new(52);
    let (mut sizes, mut passed_over) = (BTreeSet::new(), 0);
    for shift in 21..=31 {
        let most = (1usize << (32 - shift)) - 1;
        for n in 1..=most.min(32) {
            for _ in 0..3 {
                let tags = random.multiples(n, 1 << shift);
                let seeds = (0..200).filter(|&seed| serves(&tags, seed)).take(6);
                for seed in seeds.chain([random.below(65_536) as u32]) {
                    let word = least_word(&tags, seed);
                    assert_eq!(word, least_of(words_above(shift), &tags, seed), "{tags:?}");
                    sizes.extend(word.map(|_| n));
                    passed_over += u32::from(word.is_none() && serves(&tags, seed));
                }
            }
        }
    }
    // Words were found for every size that eleven bits often suffice for, and seeds that serve were
    // passed over.
    assert!((1..=16).all(|n| sizes.contains(&n)), "{sizes:?}");
    assert!(sizes.contains(&31), "{sizes:?}");
    assert!(passed_over > 99, "{passed_over}");
}

#[test]
fn all_sequences_that_fill_say_the_same_of_groups_of_every_size() {
    let mut random = Random::new(53);
    let (mut compared, mut ones, mut zeros) = (0, 0, 0);
    for n in 0..=32 {
        for round in 0..16 {
            let step = 1 << random.below(20);
            let tags = match round % 4 {
                0 => random.tags(n),
                1 => (1 + round as u32..).take(n).collect(),
                2 => random.multiples(n, step),
                _ => close_to_each_other(&mut random, n),
            };
            // Small groups under any seeds, large ones under the first that serves.
            let mut seeds = vec![random.below(65_536) as u32];
            seeds.extend(first_seed(&tags, 2_000));
            seeds.extend(first_seed_and_word(&tags, 2_000).map(|(seed, _)| seed));
            for seed in seeds {
                let Some(word) = least_by_sequences(&tags, seed) else {
                    continue;
                };
                assert_eq!(least_word(&tags, seed), word, "{tags:?} {seed}");
                compared += 1;
                if let Some(word) = word {
                    assert!(makes_different(&tags, seed, word));
                    ones |= word;
                    zeros |= !word;
                }
            }
        }
    }
    assert!(compared > 900, "{compared}");
    // Every bit was 1 once, bit 31 too, and 0 once.
    assert_eq!((ones, zeros), (u32::MAX, u32::MAX));
}

fn close_to_each_other(random: &mut Random, n: usize) -> Vec<u32> {
    let first = random.tag().min(u32::MAX - 1_000);
    let mut steps: Vec<u32> = (0..8 * n as u32).collect();
    random.shuffle(&mut steps);
    let mut tags: Vec<u32> = steps[..n].iter().map(|step| first + step).collect();
    tags.sort_unstable();
    tags
}

#[test]
fn a_tag_with_two_equal_places_binds_nothing() {
    // Under seed 0 tag 1 has place 1 twice and tag 2 the places 0 and 1.
    assert_eq!(places(&[1, 2], 0), [[1, 1], [0, 1]]);
    // Whatever the choice of tag 1, that of tag 2 has to be 0.
    for word in 0..1 << 10 {
        assert_eq!(
            makes_different(&[1, 2], 0, word),
            choice_of(0, word, 2) == 0
        );
    }
    assert_eq!(least_word(&[1, 2], 0), Some(0));
    // Every tag has one place, and no other has it: every word serves.
    for n in [1, 2, 7, 31, 32] {
        let mut tag = 0;
        let tags: Vec<u32> = (0..n)
            .map(|place| {
                let alone =
                    |tag: &u32| [0, 1].map(|choice| place_of(n, 5, choice, *tag)) == [place; 2];
                tag = (tag + 1..)
                    .find(alone)
                    .expect("some tag has this place twice");
                tag
            })
            .collect();
        assert_eq!(least_word(&tags, 5), Some(0));
        for word in [1, 1 << 31, u32::MAX] {
            assert!(makes_different(&tags, 5, word));
        }
    }
}

#[test]
fn two_tags_with_the_same_two_places_are_bound_to_each_other_only() {
    // Two such pairs, and in each the two choices have to differ or to be the same: four sequences.
    let mut random = Random::new(54);
    let (mut found, mut greater) = (0, 0);
    for _ in 0..20_000 {
        let tags = random.tags(4);
        let mut pairs = places(&tags, 3);
        for pair in &mut pairs {
            pair.sort_unstable();
        }
        pairs.sort_unstable();
        if pairs != [[0, 1], [0, 1], [2, 3], [2, 3]] {
            continue;
        }
        found += 1;
        let filling = sequences(&places(&tags, 3), 99).unwrap();
        assert_eq!(filling.len(), 4);
        let word = least_word(&tags, 3);
        assert_eq!(Some(word), least_by_sequences(&tags, 3));
        // The word of the sequence that placing takes is often greater.
        let rows: Vec<u32> = tags.iter().map(|&tag| row_of(3, tag)).collect();
        let preferred = least_for_sequence(&rows, placing::word_taken(&tags, 3).unwrap());
        assert!(preferred.is_none() || word <= preferred);
        greater += u32::from(word < preferred);
    }
    assert!(found > 9 && greater > 3, "{found} {greater}");
}

/// The tag with index 2 has the row of the two others together, and the sequences that fill under seed 0
/// have another choice for it.
const ROWS_THAT_CANCEL_OUT: [u32; 3] = [19, 24, 43];

#[test]
fn a_seed_that_has_filling_sequences_but_no_word_is_passed_over() {
    let [first, second, third] = ROWS_THAT_CANCEL_OUT;
    assert_eq!(row_of(0, first) ^ row_of(0, second), row_of(0, third));
    let filling = sequences(&places(&ROWS_THAT_CANCEL_OUT, 0), 99).unwrap();
    assert_eq!(filling.len(), 2);
    for choices in filling {
        assert_eq!(choices.count_ones() % 2, 1, "{choices:b}");
    }
    // Placing takes seed 0. Here it is passed over, and seed 1 does not serve.
    assert!(place_group(&ROWS_THAT_CANCEL_OUT, 1).is_ok());
    assert_eq!(least_word(&ROWS_THAT_CANCEL_OUT, 0), None);
    assert!(!serves(&ROWS_THAT_CANCEL_OUT, 1));
    for limit in [1, 2] {
        assert_eq!(first_seed_and_word(&ROWS_THAT_CANCEL_OUT, limit), None);
    }
    assert_eq!(first_seed_and_word(&ROWS_THAT_CANCEL_OUT, 3), Some((2, 0)));
}

/// Four tags that seed 1 serves, and of which no seed has a word: two, four, five and seven times 2^29.
const SERVED_WITHOUT_A_WORD: [u32; 4] = [2 << 29, 4 << 29, 5 << 29, 7 << 29];

#[test]
fn no_seed_has_a_word_though_some_serve() {
    assert_eq!(
        place_group(&SERVED_WITHOUT_A_WORD, 65_536).map(|(seed, _)| seed),
        Ok(1)
    );
    assert_eq!(first_seed_and_word(&SERVED_WITHOUT_A_WORD, 65_536), None);
    // The rows leave all but the highest three bits without effect, so eight words are all.
    for seed in 0..65_536 {
        assert_eq!(
            least_of(words_above(29), &SERVED_WITHOUT_A_WORD, seed),
            None
        );
    }
    // No seed serves these, so that none has a word.
    for tags in [
        &WITHOUT_PLACE_2[..],
        &FIVE_ON_FOUR_PLACES,
        &group_without_seed(),
        &two_on_place_0(),
    ] {
        assert_eq!(first_seed_and_word(tags, 65_536), None);
    }
}

#[test]
fn no_lower_seed_of_a_taken_one_has_a_word() {
    let mut random = Random::new(55);
    for n in 1..=12 {
        let tags = random.multiples(n, 1 << 22);
        let (seed, word) = first_seed_and_word(&tags, 65_536).unwrap();
        for lower in 0..seed {
            assert_eq!(least_of(words_above(22), &tags, lower), None);
        }
        assert_eq!(least_of(words_above(22), &tags, seed), Some(word));
    }
}

#[test]
fn groups_of_32_tags_have_words_of_32_bits() {
    let mut random = Random::new(56);
    let mut ones = 0;
    for _ in 0..12 {
        let tags = random.tags(32);
        let Some((seed, word)) = first_seed_and_word(&tags, 65_536) else {
            continue;
        };
        assert!(makes_different(&tags, seed, word));
        // Each bit that is 1 is needed: no word is the same above it and has 0 there.
        let rows: Vec<u32> = tags.iter().map(|&tag| row_of(seed, tag)).collect();
        for choices in sequences(&places(&tags, seed), 1 << 20).unwrap() {
            for bit in (0..32).filter(|bit| word >> bit & 1 == 1) {
                let mut equations: Vec<(u32, u32)> = (0..32)
                    .map(|index| (rows[index], choices >> index & 1))
                    .collect();
                let same_above = (bit + 1..32).map(|above| (1 << above, word >> above & 1));
                equations.extend(same_above.chain([(1 << bit, 0)]));
                assert!(!have_a_word(&equations), "{tags:?} {seed} {bit}");
            }
        }
        ones |= word;
    }
    assert!(ones >> 28 != 0, "{ones:x}");
}

/// 32 tags that seed 65,535 serves, and no other; it has a word for them.
const LAST_SEED: [u32; 32] = [
    31, 41, 521, 587, 1926, 2118, 2431, 2632, 2778, 3039, 3273, 3443, 3871, 4127, 4436, 4452, 4662,
    5245, 5281, 5333, 5421, 6130, 6933, 7620, 7632, 7697, 8132, 8484, 9305, 9764, 9771, 9791,
];

#[test]
fn the_last_seed_is_tried_where_the_limit_is_65536() {
    let taken = first_seed_and_word(&LAST_SEED, 65_536);
    assert_eq!(taken, Some((65_535, 148_139_306)));
    assert_eq!(first_seed_and_word(&LAST_SEED, 65_535), None);
    let rows = LAST_SEED.map(|tag| row_of(65_535, tag));
    let filling = sequences(&places(&LAST_SEED, 65_535), 1 << 16).unwrap();
    let words = filling
        .iter()
        .filter_map(|&choices| least_for_sequence(&rows, choices));
    assert_eq!(words.min(), Some(148_139_306));
}
