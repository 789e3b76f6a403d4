//! The traps of document 01: for each, a concrete group, and the wrong method's other answer.

use crate::common::{chosen_places, fills, places, refusal};
use model::placing::{serves, word_taken};
use model::{image_of, place_group};

/// A cuckoo insertion that gives up a chain after so many moves: its end state, as a choice word.
fn eviction(tags: &[u32], seed: u32, most_moves: usize) -> Option<u32> {
    let pairs = places(tags, seed);
    let mut holder = vec![None; tags.len()];
    let mut word = 0;
    for tag in 0..tags.len() {
        let (mut moving, mut moves) = (tag, 0);
        loop {
            if moves == most_moves {
                return None;
            }
            moves += 1;
            let place = pairs[moving][(word >> moving & 1) as usize] as usize;
            let Some(evicted) = holder[place].replace(moving) else {
                break;
            };
            word ^= 1 << evicted;
            moving = evicted;
        }
    }
    Some(word)
}

/// The first seed below L that passes a test.
fn first_seed(limit: u32, passes: impl Fn(u32) -> bool) -> Option<u32> {
    (0..limit).find(|&seed| passes(seed))
}

#[test]
fn two_tags_with_the_same_two_places_are_a_cycle_and_can_be_filled() {
    let tags = [599, 1193];
    assert_eq!(places(&tags, 0), [[0, 1], [0, 1]]);
    assert!(serves(&tags, 0));
    assert_eq!(place_group(&tags, 1), Ok((0, 2)));

    let rejecting_shared_pairs = |seed| {
        let mut pairs = places(&tags, seed);
        pairs.iter_mut().for_each(|pair| pair.sort_unstable());
        serves(&tags, seed) && pairs[0] != pairs[1]
    };
    assert_ne!(first_seed(65_536, rejecting_shared_pairs), Some(0));
}

#[test]
fn the_same_two_places_in_opposite_order_are_a_cycle_too() {
    // A quarter and three quarters: choice 0 of one is choice 1 of the other, under every seed.
    let tags = [1_073_741_824, 3_221_225_472];
    assert_eq!(places(&tags, 0), [[0, 1], [1, 0]]);
    assert_eq!(place_group(&tags, 1), Ok((0, 0)));
    assert!(fills(&tags, 0, 3));
}

#[test]
fn three_tags_on_two_places_cannot_be_filled() {
    // The cycle is legal; one more tag on its two places is too many.
    let tags = [13, 1_073_741_824, 3_221_225_472];
    assert_eq!(places(&tags, 0), [[0, 0], [0, 2], [2, 0]]);
    assert!(!serves(&tags, 0));
    assert_eq!(word_taken(&tags, 0), None);
}

#[test]
fn a_tag_with_equal_places_touches_one_place() {
    // Each place new to the group counts; the wrong count takes both sides of a tag as new.
    let touched = |tags: &[u32], seed, both_sides: bool| {
        let mut seen = Vec::new();
        let mut count = 0;
        for [first, second] in places(tags, seed) {
            let new = [first, second].map(|place| usize::from(!seen.contains(&place)));
            count += if first == second && !both_sides {
                new[0]
            } else {
                new[0] + new[1]
            };
            seen.extend([first, second]);
        }
        count
    };
    // Seed 0 fills {1, 2}; the wrong count of 3 is not n and would drop it.
    assert_eq!(places(&[1, 2], 0), [[1, 1], [0, 1]]);
    assert_eq!(touched(&[1, 2], 0, false), 2);
    assert_eq!(touched(&[1, 2], 0, true), 3);
    assert!(serves(&[1, 2], 0));
    // Seed 0 does not fill {1, 3}; the wrong count of 2 is n and would let it pass.
    assert_eq!(places(&[1, 3], 0), [[1, 1], [1, 1]]);
    assert_eq!(touched(&[1, 3], 0, false), 1);
    assert_eq!(touched(&[1, 3], 0, true), 2);
    assert!(!serves(&[1, 3], 0));
}

#[test]
fn an_eviction_chain_may_pass_a_tag_twice_and_still_succeed() {
    let tags = [13, 57, 61];
    assert_eq!(places(&tags, 1), [[0, 0], [0, 1], [1, 2]]);
    assert!(serves(&tags, 1));
    assert_eq!(word_taken(&tags, 1), Some(0b110));
    assert_eq!(place_group(&tags, 9), Ok((1, 0b110)));
    // The last tag's chain moves 61, 57, 13, 57 again and 61 again: five moves, three tags.
    assert_eq!(eviction(&tags, 1, tags.len()), None);
    assert_eq!(eviction(&tags, 1, 2 * tags.len()), Some(0b110));
}

#[test]
fn the_sequence_with_the_fewest_ones_is_taken_and_not_the_end_state_of_eviction() {
    let tags = [14, 337_764_173, 964_266_638, 2_787_973_142];
    assert_eq!(places(&tags, 1), [[1, 2], [0, 3], [3, 0], [3, 2]]);
    assert_eq!(word_taken(&tags, 1), Some(0b1000));
    assert_eq!(chosen_places(&tags, 1, 0b1000), [1, 0, 3, 2]);
    let end_state = eviction(&tags, 1, 100).unwrap();
    assert_eq!(end_state, 0b1110);
    assert!(fills(&tags, 1, end_state));
}

#[test]
fn the_sequence_taken_shows_in_the_image() {
    let tags = [599, 1193];
    assert_eq!(place_group(&tags, 1), Ok((0, 2)));
    assert_eq!(eviction(&tags, 0, 100), Some(1));
    assert!(fills(&tags, 0, 1));
    let image = image_of(&tags, 1, 1).unwrap();
    assert_eq!(image, b"    2    1\n    0    0\n       599\n      1193\n");
}

#[test]
fn between_equals_the_lowest_tag_decides_and_not_the_least_word() {
    // Words 1 (1, 0) and 2 (0, 1) both fill, with one 1 each; as a number 1 is less, and 0, 1 is taken.
    let tags = [599, 1193];
    assert!(fills(&tags, 0, 1) && fills(&tags, 0, 2));
    assert_eq!(word_taken(&tags, 0), Some(2));
}

#[test]
fn a_place_is_the_high_part_of_the_product_and_not_a_remainder() {
    let remainder = |seed, choice, tag: u32| {
        model::hash::multiplier(seed, choice) * u64::from(tag) % (1 << 32) % 2
    };
    // Odd multiplier, odd tag: the remainder by 2 is 1 under every seed, so {1, 3} has none.
    for seed in 0..65_536 {
        for choice in 0..2 {
            assert_eq!([1, 3].map(|tag| remainder(seed, choice, tag)), [1, 1]);
        }
    }
    assert_eq!(place_group(&[1, 3], 2), Ok((1, 2)));
    // The other way round: both have places 1 and 1 under seed 0, but remainders 1 and 0.
    assert_eq!(places(&[1, 8], 0), [[1, 1], [1, 1]]);
    assert_eq!([1, 8].map(|tag| remainder(0, 0, tag)), [1, 0]);
    assert_eq!(place_group(&[1, 8], 1), Err(refusal(7, 0)));
}
