//! Document 02, §6: "Fewest second places first." Small groups in which the fewest ones, the lowest tag
//! or the last one decides, and every group of few tags on few places against brute force.

use crate::common::{
    all_different, chosen_places, fills, in_order, lowest_tag_first, places, tags_of, Key,
};
use model::placing::{serves, word_of_pairs, word_taken};
use model::tagless::{choice_of, first_seed_and_word};
use model::{image_of, place_group};
use random::Random;

/// All words that fill, and the one that the lowest tag alone would have decided for.
fn filling(tags: &[u32], seed: u32) -> (Vec<u32>, Option<u32>) {
    let all = 0..1 << tags.len();
    let before = lowest_tag_first(tags.len());
    (
        all.filter(|&word| fills(tags, seed, word)).collect(),
        before.into_iter().find(|&word| fills(tags, seed, word)),
    )
}

#[test]
fn one_second_place_is_taken_and_not_two_though_the_lowest_tag_has_it() {
    let tags = [1, 2, 12];
    assert_eq!(places(&tags, 0), [[1, 2], [0, 2], [1, 0]]);
    assert_eq!(filling(&tags, 0), (vec![0b001, 0b110], Some(0b110)));
    assert_eq!(place_group(&tags, 1), Ok((0, 0b001)));
    assert_eq!(chosen_places(&tags, 0, 0b001), [2, 0, 1]);
    assert_eq!(
        image_of(&tags, 1, 1).unwrap(),
        b"    3    1\n    0    0\n         2\n        12\n         1\n"
    );
}

#[test]
fn between_equals_the_lowest_tag_decides_in_each_part() {
    // Two pairs of tags on two places each: one second place in each pair, whatever is taken.
    let tags = [1, 5, 14, 18];
    assert_eq!(places(&tags, 0), [[2, 3], [0, 1], [2, 3], [0, 1]]);
    let words = vec![0b0011, 0b0110, 0b1001, 0b1100];
    assert_eq!(filling(&tags, 0), (words, Some(0b1100)));
    assert_eq!(place_group(&tags, 1), Ok((0, 0b1100)));

    // A cycle of four to which the lowest tag does not belong.
    let tags = [45, 62, 95, 122, 179];
    assert_eq!(places(&tags, 1), [[0, 3], [2, 1], [2, 4], [0, 4], [0, 1]]);
    let words = vec![0b01011, 0b10101];
    assert_eq!(filling(&tags, 1), (words, Some(0b10101)));
    assert_eq!(word_taken(&tags, 1), Some(0b10101));

    // In a cycle of three the fewest ones decide, in one of two the lowest tag: 56 before 145.
    let tags = [18, 44, 56, 59, 145];
    assert_eq!(places(&tags, 0), [[0, 1], [0, 2], [3, 4], [2, 1], [3, 4]]);
    let words = vec![0b00101, 0b01110, 0b10001, 0b11010];
    assert_eq!(filling(&tags, 0), (words, Some(0b11010)));
    assert_eq!(place_group(&tags, 1), Ok((0, 0b10001)));
}

#[test]
fn a_tag_with_equal_places_takes_its_first() {
    assert_eq!(places(&[1, 3], 1), [[0, 0], [0, 1]]);
    assert_eq!(filling(&[1, 3], 1), (vec![0b10, 0b11], Some(0b10)));
    assert_eq!(place_group(&[1, 3], 2), Ok((1, 0b10)));
    for n in 1..=32 {
        let alone: Vec<Key> = (0..n).map(|place| [place; 2]).collect();
        let (seed, tags) = tags_of(&alone);
        assert_eq!(word_taken(&tags, seed), Some(0));
        assert!(fills(&tags, seed, 1 << (n - 1)));
    }
}

#[test]
fn the_last_of_32_tags_decides_between_one_second_place_and_two() {
    // A cycle of the first tag, the second and the last, on the places 29, 30 and 31; every other tag
    // has a place to itself. Of the first 31 tags one takes its second place either way.
    let mut keys: Vec<Key> = vec![[30, 31], [29, 31]];
    keys.extend((0..29).map(|place| [place; 2]));
    keys.push([30, 29]);
    let (seed, tags) = tags_of(&keys);
    let (fewest, before) = (0b1, 1 << 31 | 0b10);
    assert!(fills(&tags, seed, fewest) && fills(&tags, seed, before));
    assert_eq!(word_taken(&tags, seed), Some(fewest));

    // A cycle of the first three tags and the last: two second places either way, if that of the last
    // is counted, so the lowest tag decides.
    let mut keys: Vec<Key> = vec![[28, 29], [30, 29], [31, 30]];
    keys.extend((0..28).map(|place| [place; 2]));
    keys.push([31, 28]);
    let (seed, tags) = tags_of(&keys);
    let (lowest, last) = (0b110, 1 << 31 | 0b1);
    assert!(fills(&tags, seed, lowest) && fills(&tags, seed, last));
    assert_eq!(word_taken(&tags, seed), Some(lowest));
}

/// Of all sequences of pairs of places: how many some word fills, in how many several words have the
/// fewest ones, and in how many the word taken is not the one that the lowest tag alone would decide for.
#[derive(Debug, Default, PartialEq)]
struct Counts {
    filled: u32,
    equals: u32,
    unlike_the_order_before: u32,
}

/// Every sequence of so many pairs of places below this number, against brute force.
fn every_sequence(keys: usize, places: u32) -> Counts {
    let words = in_order(keys);
    let before = lowest_tag_first(keys);
    let mut counts = Counts::default();
    for number in 0..places.pow(2 * keys as u32) {
        let mut digits = number;
        let mut room: [Key; 5] = [[0; 2]; 5];
        for place in room[..keys].iter_mut().flatten() {
            *place = digits % places;
            digits /= places;
        }
        let pairs = &room[..keys];
        let mut filling = words
            .iter()
            .copied()
            .filter(|&word| all_different(pairs, word));
        let taken = filling.next();
        let stated = word_of_pairs(&room.map(|pair| pair.map(|place| place as usize))[..keys]);
        assert_eq!(stated, taken, "{pairs:?}");
        let Some(word) = taken else { continue };
        counts.filled += 1;
        let second = filling.next();
        counts.equals +=
            u32::from(second.is_some_and(|other| other.count_ones() == word.count_ones()));
        let first = before.iter().find(|&&word| all_different(pairs, word));
        counts.unlike_the_order_before += u32::from(first != Some(&word));
    }
    counts
}

/// The three counts of all sequences of so many pairs of places below a number.
fn counted(keys: usize, places: u32, counts: [u32; 3]) {
    let [filled, equals, unlike_the_order_before] = counts;
    let counts = Counts {
        filled,
        equals,
        unlike_the_order_before,
    };
    let counted = every_sequence(keys, places);
    assert_eq!(counted, counts, "{keys} tags on {places} places");
}

#[test]
fn every_group_of_up_to_five_tags_on_as_many_places() {
    counted(0, 0, [1, 0, 0]);
    counted(1, 1, [1, 0, 0]);
    counted(2, 2, [14, 2, 0]);
    counted(3, 3, [522, 90, 12]);
    counted(4, 4, [37_272, 7_128, 1_488]);
    counted(5, 5, [4_337_400, 881_400, 236_400]);
}

#[test]
fn every_group_of_few_tags_on_more_places() {
    counted(0, 3, [1, 0, 0]);
    counted(1, 4, [16, 0, 0]);
    counted(2, 3, [78, 12, 0]);
    counted(2, 6, [1_290, 150, 0]);
    counted(3, 4, [3_648, 744, 96]);
    counted(3, 5, [14_820, 3_180, 360]);
    counted(3, 6, [45_360, 9_720, 960]);
    counted(4, 5, [311_640, 72_000, 15_000]);
    counted(4, 6, [1_502_280, 381_960, 73_440]);
}

#[test]
fn fewer_places_than_tags_are_filled_by_nothing() {
    for keys in 1..=5 {
        for places in 0..keys as u32 {
            counted(keys, places, [0; 3]);
        }
    }
}

#[test]
fn the_words_of_the_index_without_tags_do_not_follow() {
    let mut random = Random::new(61);
    let mut more_ones = 0;
    for _ in 0..300 {
        let tags = random.tags(5);
        let Some((seed, word)) = first_seed_and_word(&tags, 99) else {
            continue;
        };
        assert!(serves(&tags, seed));
        let ones: u32 = tags.iter().map(|&tag| choice_of(seed, word, tag)).sum();
        let fewest = word_taken(&tags, seed).expect("the seed serves");
        more_ones += u32::from(ones > fewest.count_ones());
    }
    assert!(more_ones > 100, "{more_ones}");
}
