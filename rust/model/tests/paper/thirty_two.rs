//! Document 02, §2: "Thirty-two tags to a group." Groups made so that their candidate places form a
//! given graph, of every size up to 32; their words by another method than the model's; the sizes 0,
//! 1, 2, 31, 32 and 33.

use crate::common::{
    fills, group_without_seed, places, refusal, tags_of, tags_of_group, two_on_place_0, Key,
};
use model::placing::{serves, word_taken};
use model::Found;
use model::{answer_place, check, image_of, lookup, place_group, place_of_one_tag, strict_check};
use random::Random;

/// The word of the sequence that is taken, by cycles alone. A place that one tag alone reaches gets that
/// tag; where none is left, what remains must be cycles. Each has two ways to fill it, which differ in
/// every choice: the way with fewer ones, and where both have as many, the one that gives the lowest tag
/// its first place.
fn taken_by_cycles(keys: &[Key]) -> Option<u32> {
    let n = keys.len();
    let mut left: Vec<usize> = (0..n).collect();
    let mut free: Vec<u32> = (0..n as u32).collect();
    let mut word = 0;
    loop {
        let ends = |place: u32| {
            let at = |&tag: &usize| keys[tag].iter().filter(|&&end| end == place).count();
            left.iter().map(at).sum::<usize>()
        };
        if free.iter().any(|&place| ends(place) == 0) {
            return None;
        }
        let alone = free.iter().copied().find(|&place| ends(place) == 1);
        let (tags, choices) = if let Some(place) = alone {
            let tag = *left.iter().find(|&&tag| keys[tag].contains(&place))?;
            (1 << tag, u32::from(keys[tag][1] == place) << tag)
        } else if free.iter().any(|&place| ends(place) > 2) {
            return None;
        } else if let Some(&lowest) = left.first() {
            let (cycle, way) = cycle_of(lowest, keys, &left);
            let other = cycle ^ way;
            let fewer = way.count_ones() <= other.count_ones();
            (cycle, if fewer { way } else { other })
        } else {
            return Some(word);
        };
        word |= choices;
        let chosen = |tag: usize| keys[tag][(choices >> tag & 1) as usize];
        free.retain(|&place| (0..n).all(|tag| tags >> tag & 1 == 0 || chosen(tag) != place));
        left.retain(|&tag| tags >> tag & 1 == 0);
    }
}

/// The tags of the cycle that this one lies on, as a word, and their choices if it takes its first
/// place: the next tag there takes its other one, and so on round the cycle.
fn cycle_of(lowest: usize, keys: &[Key], left: &[usize]) -> (u32, u32) {
    let [mut place, last] = keys[lowest];
    let (mut cycle, mut way) = (1 << lowest, 0);
    let mut tag = lowest;
    while place != last {
        let next = |&&other: &&usize| other != tag && keys[other].contains(&place);
        tag = *left.iter().find(next).expect("a place of a cycle has two");
        let choice = u32::from(keys[tag][0] == place);
        place = keys[tag][choice as usize];
        cycle |= 1 << tag;
        way |= choice << tag;
    }
    (cycle, way)
}

/// A path from the place 0, which its first tag has to itself: every other tag takes its second.
fn path(n: u32) -> Vec<Key> {
    (0..n).map(|i| [i.saturating_sub(1), i]).collect()
}

/// The same path from its other end: all tags have their first places until the last one comes.
fn path_to_be_moved_along(n: u32) -> Vec<Key> {
    (1..n).map(|i| [i - 1, i]).chain([[0, 0]]).collect()
}

fn cycle(n: u32) -> Vec<Key> {
    (0..n).map(|i| [i, (i + 1) % n]).collect()
}

/// A path that ends in a fork: an eviction goes down the path, turns at its first tag and comes back.
fn lollipop(n: u32) -> Vec<Key> {
    let mut keys = path(n - 2);
    keys.extend([[n - 2, n - 1], [n - 2, n - 3]]);
    keys
}

/// A function from places to places: each part has one cycle. The tags come in any order, and either
/// place may be the first.
fn function(random: &mut Random, n: u32) -> Vec<Key> {
    let mut keys: Vec<Key> = (0..n)
        .map(|place| [place, random.below(n as usize) as u32])
        .collect();
    shuffle(random, &mut keys);
    keys
}

fn shuffle(random: &mut Random, keys: &mut [Key]) {
    random.shuffle(keys);
    for key in keys {
        if random.below(2) == 1 {
            key.swap(0, 1);
        }
    }
}

/// Holds both methods of the model against `taken_by_cycles`, under the seed that the keys are for.
fn agrees(keys: &[Key]) -> Option<u32> {
    let (seed, tags) = tags_of(keys);
    assert_eq!(places(&tags, seed), keys);
    let word = taken_by_cycles(keys);
    assert_eq!(word_taken(&tags, seed), word, "{keys:?}");
    assert_eq!(serves(&tags, seed), word.is_some(), "{keys:?}");
    if let Some(word) = word {
        assert!(fills(&tags, seed, word));
    }
    // Placing stops at this seed, unless a lower one serves too.
    match place_group(&tags, seed + 1) {
        Ok((found, taken)) if found == seed => assert_eq!(Some(taken), word),
        Ok((lower, _)) => assert!(lower < seed),
        Err(refused) => assert_eq!((refused, word), (refusal(7, 0), None)),
    }
    word
}

/// The number of n ones, all 32 of them included.
fn ones(n: u32) -> u32 {
    ((1u64 << n) - 1) as u32
}

#[test]
fn the_words_of_paths_cycles_and_lollipops_are_known() {
    for n in 1..=32 {
        assert_eq!(agrees(&path(n)), Some(ones(n) - 1));
        assert_eq!(agrees(&path_to_be_moved_along(n)), Some(ones(n - 1)));
        assert_eq!(agrees(&cycle(n)), Some(0));
        if n > 3 {
            assert_eq!(agrees(&lollipop(n)), Some(ones(n - 1) - 1));
        }
    }
    assert_eq!(agrees(&path(32)), Some(4_294_967_294));
}

#[test]
fn the_word_taken_for_any_parts_is_that_of_their_cycles() {
    let mut random = Random::new(21);
    let mut bits = (0, u32::MAX);
    for n in 1..=32 {
        for mut keys in [cycle(n), path(n), path_to_be_moved_along(n)] {
            shuffle(&mut random, &mut keys);
            assert!(agrees(&keys).is_some());
        }
        for _ in 0..6 {
            let word = agrees(&function(&mut random, n)).expect("each part has one cycle");
            if n == 32 {
                bits = (bits.0 | word, bits.1 & word);
            }
        }
    }
    // In groups of 32 every bit was 1 once and 0 once.
    assert_eq!(bits, (u32::MAX, 0));
}

#[test]
fn a_part_with_more_tags_than_places_is_not_filled() {
    let mut random = Random::new(22);
    for n in 3..=32 {
        // The last place of a cycle is left to nobody: its two tags go elsewhere.
        let mut keys = cycle(n);
        keys[n as usize - 1] = [0, 0];
        keys[n as usize - 2] = [0, n / 2];
        shuffle(&mut random, &mut keys);
        assert_eq!(agrees(&keys), None);
        // Every place is reached, and three tags share two of them.
        if n > 4 {
            let mut keys: Vec<Key> = vec![[0, 1], [1, 0], [0, 1]];
            keys.extend((3..n).map(|i| [i - 1, i]));
            shuffle(&mut random, &mut keys);
            assert_eq!(agrees(&keys), None);
        }
    }
}

#[test]
fn random_groups_of_up_to_32_tags_have_the_words_of_their_cycles() {
    let mut random = Random::new(23);
    for n in 0..=32 {
        let tags = random.tags(n);
        let (seed, word) = place_group(&tags, 65_536).unwrap();
        assert_eq!(taken_by_cycles(&places(&tags, seed)), Some(word));
        for lower in 0..seed {
            assert_eq!(taken_by_cycles(&places(&tags, lower)), None);
        }
    }
}

#[test]
fn the_sizes_0_1_2_31_and_32_are_placed_built_checked_and_found_and_33_is_refused() {
    for size in [0, 1, 2, 31, 32] {
        let tags = tags_of_group(1, 2, size);
        let (seed, word) = place_group(&tags, 65_536).unwrap();
        let mut cell = [77];
        assert_eq!(answer_place(&tags, 65_536, &mut cell), u64::from(seed));
        assert_eq!(cell, [word]);
        let image = image_of(&tags, 2, 65_536).unwrap();
        assert_eq!(check(&image), Ok(()));
        assert_eq!(strict_check(&image), Ok(()));
        for &tag in &tags {
            let n = size as u32;
            let numbers = [0, 1].map(|choice| place_of_one_tag(n, seed, choice, tag).unwrap());
            let Ok(Found::Number(number)) = lookup(&image, tag) else {
                panic!("{tag} is listed");
            };
            assert!(numbers.contains(&number));
        }
    }
    let tags = tags_of_group(1, 2, 33);
    assert_eq!(place_group(&tags, 65_536), Err(refusal(5, 0)));
    assert_eq!(image_of(&tags, 2, 65_536), Err(refusal(10, 1)));
    assert_eq!(place_of_one_tag(33, 0, 0, 7), Err(refusal(1, 0)));
    // The first 32 of them pass, and so do all of them in more groups.
    assert!(image_of(&tags[..32], 2, 65_536).is_ok());
    assert!(image_of(&tags, 8, 65_536).is_ok());
}

#[test]
fn the_placing_call_answers_the_seed_and_writes_the_word() {
    let (_, tags) = tags_of(&path(32));
    for cell in [0, 1, 77, u32::MAX] {
        let mut word = [cell];
        assert_eq!(answer_place(&[1, 3], 2, &mut word), 1);
        assert_eq!(word, [2]);
        word = [cell];
        assert_eq!(answer_place(&[], 1, &mut word), 0);
        assert_eq!(word, [0]);
        word = [cell];
        assert_eq!(answer_place(&tags, 9, &mut word), 8);
        assert_eq!(word, [4_294_967_294]);
    }
}

#[test]
fn a_refusal_of_the_placing_call_leaves_the_cell_as_it_was() {
    let cases: [(&[u32], u32, u64, u64); 9] = [
        (&[1], 0, 4, 0),
        (&[5; 33], 65_537, 4, 0),
        (&[5; 33], 1, 5, 0),
        (&[0; 33], 1, 5, 0),
        (&[5; 32], 1, 6, 1),
        (&[0, 5, 6, 6], 1, 6, 3),
        (&[0, 13], 1, 17, 0),
        (&[1, 3], 1, 7, 0),
        (&group_without_seed(), 65_536, 7, 0),
    ];
    for (tags, limit, number, place) in cases {
        for cell in [0, 1, 77, u32::MAX] {
            let mut word = [cell];
            let answer = answer_place(tags, limit, &mut word);
            assert_eq!(answer, number * 4_294_967_296 + place);
            assert_eq!(word, [cell]);
        }
    }
}

/// 32 tags that seed 65,535 serves, and no other: found by trying some ten million groups.
const LAST_SEED: [u32; 32] = [
    31, 41, 521, 587, 1926, 2118, 2431, 2632, 2778, 3039, 3273, 3443, 3871, 4127, 4436, 4452, 4662,
    5245, 5281, 5333, 5421, 6130, 6933, 7620, 7632, 7697, 8132, 8484, 9305, 9764, 9771, 9791,
];

#[test]
fn the_last_seed_is_tried_where_the_limit_is_65536() {
    assert_eq!(place_group(&LAST_SEED, 65_536), Ok((65_535, 2_463_874_191)));
    assert_eq!(place_group(&LAST_SEED, 65_535), Err(refusal(7, 0)));
    let last = places(&LAST_SEED, 65_535);
    assert_eq!(taken_by_cycles(&last), Some(2_463_874_191));
    for seed in 0..65_535 {
        assert_eq!(taken_by_cycles(&places(&LAST_SEED, seed)), None);
    }
    let image = image_of(&LAST_SEED, 1, 65_536).unwrap();
    assert_eq!(image[..22], *b"   32    1\n    065535\n");
    assert_eq!(strict_check(&image), Ok(()));
    assert_eq!(image_of(&LAST_SEED, 1, 65_535), Err(refusal(7, 0)));
}

#[test]
fn groups_of_32_tags_that_no_seed_serves() {
    for seed in 0..65_536 {
        let touched = |tags: &[u32]| {
            let mut touched = [false; 32];
            for place in places(tags, seed).into_iter().flatten() {
                touched[place as usize] = true;
            }
            touched.iter().filter(|&&touched| touched).count()
        };
        // Every seed is dropped early; no seed is.
        assert_eq!(touched(&group_without_seed()), 31);
        assert_eq!(touched(&two_on_place_0()), 32);
    }
    for tags in [group_without_seed(), two_on_place_0()] {
        assert_eq!(tags.len(), 32);
        assert_eq!(place_group(&tags, 65_536), Err(refusal(7, 0)));
        assert_eq!(image_of(&tags, 1, 65_536), Err(refusal(7, 0)));
    }
}
