//! Counting in connected parts and listing their sequences, against brute force over all sequences of the
//! group and against each other.

use crate::common::{all_different, fills, in_order, places, refusal, taken_by_brute_force};
use model::place_group;
use model::placing::{serves, word_taken};
use random::Random;

/// Steps between tags: with a high power of two, equal places and shared pairs are frequent.
const STEPS: [u32; 4] = [1, 1 << 8, 1 << 26, 1 << 28];

#[test]
fn a_seed_serves_a_group_exactly_if_some_sequence_fills_it() {
    let mut random = Random::new(3);
    let (mut served, mut not_served) = (0, 0);
    for n in 0..=12 {
        let words = in_order(n);
        for step in STEPS {
            for _ in 0..4 {
                let tags = random.multiples(n, step);
                let seed = random.below(65_536) as u32;
                for seed in [0, 1, 2, 3, seed, 65_535] {
                    let pairs = places(&tags, seed);
                    let taken = words
                        .iter()
                        .copied()
                        .find(|&word| all_different(&pairs, word));
                    assert_eq!(serves(&tags, seed), taken.is_some(), "{tags:?} {seed}");
                    assert_eq!(word_taken(&tags, seed), taken, "{tags:?} {seed}");
                    *(if taken.is_some() {
                        &mut served
                    } else {
                        &mut not_served
                    }) += 1;
                }
            }
        }
    }
    assert!(served > 200 && not_served > 200, "{served} {not_served}");
}

#[test]
fn placing_finds_the_first_seed_and_the_word_of_brute_force() {
    let mut random = Random::new(4);
    for n in 0..=9 {
        for step in STEPS {
            for _ in 0..4 {
                let tags = random.multiples(n, step);
                let limit = 1 + random.below(40) as u32;
                let first = (0..limit).find_map(|seed| {
                    taken_by_brute_force(&places(&tags, seed)).map(|word| (seed, word))
                });
                assert_eq!(
                    place_group(&tags, limit),
                    first.ok_or(refusal(7, 0)),
                    "{tags:?}"
                );
            }
        }
    }
}

#[test]
fn in_large_groups_counting_and_listing_agree_and_the_word_fills() {
    let mut random = Random::new(5);
    let mut served = 0;
    for n in 13..=32 {
        for step in STEPS {
            if step == 1 << 28 && n > 15 {
                continue; // There are only 15 such tags.
            }
            let tags = random.multiples(n, step);
            for seed in 0..400 {
                let word = word_taken(&tags, seed);
                assert_eq!(serves(&tags, seed), word.is_some(), "{tags:?} {seed}");
                if let Some(word) = word {
                    served += 1;
                    assert!(fills(&tags, seed, word) && u64::from(word) < 1 << n);
                }
            }
        }
    }
    assert!(served > 50, "{served}");
}

#[test]
fn an_empty_group_and_a_single_tag_take_seed_0_and_word_0() {
    for limit in [1, 65_536] {
        assert_eq!(place_group(&[], limit), Ok((0, 0)));
        for tag in [1, 2, 77, u32::MAX] {
            assert_eq!(place_group(&[tag], limit), Ok((0, 0)));
        }
    }
}
