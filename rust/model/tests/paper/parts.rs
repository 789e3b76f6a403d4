//! Document 02, §8: "Counting components instead of moving tags." Which seeds serve by the parts of the
//! graph, how many parts there are and how many sequences fill, what is refused, and in which order.

use crate::common::{
    all_different, fills, group_without_seed, places, refusal, tags_of, two_on_place_0, Key,
    FIVE_ON_FOUR_PLACES, WITHOUT_PLACE_2,
};
use model::parts::parts_of_pairs;
use model::placing::{place_group, serves};
use model::{answer_parts, count_parts, filling_sequences, Parts, Refusal};
use random::Random;

fn served(number: u32) -> Result<Parts, Refusal> {
    Ok(Parts {
        serves: true,
        number,
    })
}

fn not_served(number: u32) -> Result<Parts, Refusal> {
    Ok(Parts {
        serves: false,
        number,
    })
}

/// What is said of tags that have these pairs of places.
fn of_graph(keys: &[Key]) -> Result<Parts, Refusal> {
    let (seed, tags) = tags_of(keys);
    assert_eq!(places(&tags, seed), keys);
    count_parts(&tags, seed)
}

/// The sequences that fill under the seed, all 2^n tried.
fn filling(tags: &[u32], seed: u32) -> u64 {
    let words = 0..1 << tags.len();
    words.filter(|&word| fills(tags, seed, word)).count() as u64
}

/// As many sequences fill as 2 to the power of the parts if the seed serves, and none if not; and the
/// model's first test says the same of the seed.
fn agrees(tags: &[u32], seed: u32) -> Parts {
    let parts = count_parts(tags, seed).unwrap();
    let sequences = if parts.serves { 1 << parts.number } else { 0 };
    assert_eq!(filling(tags, seed), sequences, "{tags:?} under {seed}");
    assert_eq!(filling_sequences(tags, seed), sequences);
    assert_eq!(serves(tags, seed), parts.serves);
    parts
}

#[test]
fn the_worked_values_have_these_parts() {
    // Worked value 1: tag 1 has one place only, so that tag 2 has the other.
    assert_eq!(places(&[1, 2], 0), [[1, 1], [0, 1]]);
    assert_eq!(count_parts(&[1, 2], 0), served(1));
    // Worked value 2: nobody has place 0, which is a part by itself; two tags share the other.
    assert_eq!(places(&[1, 3], 0), [[1, 1], [1, 1]]);
    assert_eq!(count_parts(&[1, 3], 0), not_served(2));
    // Worked value 3: "The sequence 1, 1 fills too and is not taken." There are two, and one part.
    assert_eq!(places(&[1, 3], 1), [[0, 0], [0, 1]]);
    assert_eq!(count_parts(&[1, 3], 1), served(1));
    for (tags, seed) in [([1, 2], 0), ([1, 3], 0), ([1, 3], 1)] {
        agrees(&tags, seed);
    }
}

#[test]
fn the_empty_group_is_served_with_no_parts() {
    for seed in [0, 1, 65_535] {
        assert_eq!(count_parts(&[], seed), served(0));
        // The empty sequence fills it: 2 to the power of 0.
        agrees(&[], seed);
    }
}

#[test]
fn one_tag_has_its_only_place_under_every_seed() {
    for tag in [1, 13, u32::MAX] {
        for seed in [0, 1, 9, 65_535] {
            assert_eq!(count_parts(&[tag], seed), served(1));
            agrees(&[tag], seed);
        }
    }
}

#[test]
fn a_place_that_no_tag_has_is_a_part_by_itself() {
    // Place 2 is nobody's; place 3, where place 2 has a tag of its own; all places but 3.
    assert_eq!(of_graph(&[[0, 1], [0, 1], [1, 0]]), not_served(2));
    assert_eq!(of_graph(&[[0, 1], [0, 1], [1, 0], [2, 2]]), not_served(3));
    assert_eq!(of_graph(&[[3, 3]; 4]), not_served(4));
    for untouched in [
        &WITHOUT_PLACE_2[..],
        &group_without_seed(),
        &[1, 3],
        &[3, 16],
    ] {
        let n = untouched.len();
        let mut touched = vec![false; n];
        for place in places(untouched, 0).concat() {
            touched[place as usize] = true;
        }
        let alone = touched.iter().filter(|&&touched| !touched).count();
        assert!(alone > 0);
        // The tags are in other parts, one at least.
        let parts = count_parts(untouched, 0).unwrap();
        assert!(!parts.serves && parts.number as usize > alone, "{parts:?}");
    }
}

#[test]
fn a_tag_with_equal_places_is_an_edge() {
    // A part of one point and one edge each: as many as a part may have.
    for n in [1, 2, 5, 32] {
        let alone: Vec<Key> = (0..n).map(|place| [place, place]).collect();
        assert_eq!(of_graph(&alone), served(n));
    }
    // A second one on the same place is too many, and so is one on a cycle.
    assert_eq!(of_graph(&[[0, 0], [0, 0]]), not_served(2));
    assert_eq!(of_graph(&[[0, 1], [0, 1], [1, 1]]), not_served(2));
    // On a tree it makes the one cycle that the part may have.
    assert_eq!(of_graph(&[[0, 0], [0, 1], [1, 2]]), served(1));
}

#[test]
fn two_tags_with_the_same_pair_are_a_cycle() {
    assert_eq!(of_graph(&[[0, 1], [0, 1]]), served(1));
    assert_eq!(of_graph(&[[0, 1], [1, 0]]), served(1));
    assert_eq!(of_graph(&[[0, 1], [2, 3], [0, 1], [2, 3]]), served(2));
    assert_eq!(of_graph(&[[0, 1], [1, 0], [0, 1]]), not_served(2));
    // The pair of places of 599 is that of 1193.
    assert_eq!(count_parts(&[599, 1_193], 0), served(1));
}

#[test]
fn each_part_is_held_against_its_own_points() {
    // The whole graph has as many edges as points, always; one part has one more, another one less.
    let keys = [[0, 1], [1, 2], [2, 0], [0, 2], [3, 4], [4, 5]];
    assert_eq!(of_graph(&keys), not_served(2));
    // Without the edge too many and with one on the tree both parts have as many.
    let keys = [[0, 1], [1, 2], [2, 0], [5, 3], [3, 4], [4, 5]];
    assert_eq!(of_graph(&keys), served(2));
}

#[test]
fn parts_are_merged_whole() {
    // Edges that join large parts, in every order and direction of some: a label that is handed on one
    // way or to one place only leaves parts over.
    let path: Vec<Key> = (0..7).map(|place| [place, place + 1]).collect();
    let mut random = Random::new(8);
    for _ in 0..200 {
        let mut keys = path.clone();
        keys.push([random.below(8) as u32; 2]);
        random.shuffle(&mut keys);
        for key in &mut keys {
            key.swap(0, random.below(2));
        }
        assert_eq!(of_graph(&keys), served(1), "{keys:?}");
    }
    // Two pairs joined by their second places, and by their first.
    assert_eq!(of_graph(&[[0, 1], [2, 3], [1, 3], [3, 1]]), served(1));
    assert_eq!(of_graph(&[[1, 0], [3, 2], [1, 3], [1, 3]]), served(1));
}

#[test]
fn the_number_of_parts_is_told_where_the_seed_does_not_serve() {
    // All tags on place 0; on the places 0 and 1; and so on.
    for reached in 1..8 {
        let keys: Vec<Key> = (0..8).map(|tag| [0, tag % reached]).collect();
        assert_eq!(of_graph(&keys), not_served(8 - reached + 1));
        let (seed, tags) = tags_of(&keys);
        assert_eq!(answer_parts(&tags, seed), u64::from(2 * (9 - reached)));
    }
}

#[test]
fn groups_that_no_seed_serves_are_not_served_by_any() {
    for tags in [
        &WITHOUT_PLACE_2[..],
        &FIVE_ON_FOUR_PLACES,
        &group_without_seed(),
        &two_on_place_0(),
    ] {
        for seed in (0..65_536).step_by(97).chain([65_535]) {
            assert!(!count_parts(tags, seed).unwrap().serves);
        }
    }
}

#[test]
fn every_graph_of_few_tags_has_as_many_sequences_as_its_parts_say() {
    // Every sequence of n pairs of places, n^(2n), and how many of them are served.
    for (n, served) in [(0, 1), (1, 1), (2, 14), (3, 522), (4, 37_272)] {
        let pairs = (n * n) as u32;
        let mut met = 0;
        for number in 0..pairs.pow(n as u32) {
            let mut digits = number;
            let keys: Vec<Key> = (0..n)
                .map(|_| {
                    let pair = digits % pairs;
                    digits /= pairs;
                    [pair % n as u32, pair / n as u32]
                })
                .collect();
            let graph: Vec<[usize; 2]> = (keys.iter())
                .map(|key| key.map(|place| place as usize))
                .collect();
            let parts = parts_of_pairs(&graph);
            let filling = (0..1 << n).filter(|&word| all_different(&keys, word));
            let sequences = if parts.serves { 1 << parts.number } else { 0 };
            assert_eq!(filling.count(), sequences, "{keys:?}");
            met += u32::from(parts.serves);
        }
        assert_eq!(met, served, "{n} tags");
    }
}

#[test]
fn groups_of_up_to_twelve_tags_have_as_many_sequences_as_their_parts_say() {
    let mut random = Random::new(4);
    for n in 0..=12 {
        let (mut serving, mut numbers) = (0, Vec::new());
        for round in 0..150 {
            let tags = match round % 3 {
                0 => (1 + random.below(999) as u32..).take(n).collect(),
                _ => random.tags(n),
            };
            // A seed that serves, and any.
            let (least, _) = place_group(&tags, 65_536).unwrap();
            for seed in [least, random.below(65_536) as u32] {
                let parts = agrees(&tags, seed);
                serving += u32::from(parts.serves);
                numbers.push(parts.number);
            }
        }
        assert!(serving >= 150, "{n} tags");
        numbers.sort_unstable();
        numbers.dedup();
        assert!(numbers.len() > n / 4, "{n} tags: {numbers:?}");
    }
}

#[test]
fn sizes_up_to_32_agree_with_the_first_test() {
    let mut random = Random::new(5);
    for n in [0, 1, 2, 3, 24, 25, 31, 32] {
        let mut met = [0, 0];
        for _ in 0..30 {
            let tags = random.tags(n);
            for seed in 0..30 {
                let parts = count_parts(&tags, seed).unwrap();
                assert_eq!(parts.serves, serves(&tags, seed));
                assert!(parts.number as usize <= n);
                met[usize::from(parts.serves)] += 1;
            }
        }
        if n < 2 {
            assert_eq!(met[0], 0);
        } else {
            assert!(met[0] > 0, "{n} tags: {met:?}");
        }
    }
    // Served with 31 and with 32 tags: the seed that placing finds, and no lower one.
    for n in [31, 32] {
        let tags = random.tags(n);
        let (least, _) = place_group(&tags, 65_536).unwrap();
        for seed in 0..=least {
            let serves = seed == least;
            assert_eq!(count_parts(&tags, seed).unwrap().serves, serves);
        }
    }
}

#[test]
fn refusal_2_for_a_seed_above_65_535() {
    for tags in [&[][..], &[1], &[1, 3]] {
        for seed in [65_536, 65_537, 1 << 31, u32::MAX] {
            assert_eq!(count_parts(tags, seed), Err(refusal(2, 0)));
        }
        assert!(count_parts(tags, 65_535).is_ok());
    }
    agrees(&[1, 3], 65_535);
}

#[test]
fn refusal_5_for_more_than_32_tags() {
    for (count, refused) in [(31, false), (32, false), (33, true), (34, true), (99, true)] {
        let tags: Vec<u32> = (1..=count).collect();
        let answer = count_parts(&tags, 0);
        assert_eq!(answer == Err(refusal(5, 0)), refused, "{count}");
        assert_eq!(answer.is_err(), refused, "{count}");
    }
}

#[test]
fn refusal_6_at_the_first_index_whose_tag_is_not_above_the_one_before() {
    for count in [2, 3, 31, 32] {
        let tags: Vec<u32> = (1..=count as u32).map(|step| 7 * step).collect();
        for index in 1..count {
            for lower in [tags[index - 1], tags[0], 0] {
                let mut falls = tags.clone();
                falls[index] = lower;
                let refused = Err(refusal(6, index as u64));
                assert_eq!(count_parts(&falls, 0), refused);
                // Of two the first is named.
                falls[count - 1] = 0;
                assert_eq!(count_parts(&falls, 65_535), refused);
            }
        }
    }
}

#[test]
fn refusal_17_if_the_first_tag_is_0() {
    for tags in [&[0][..], &[0, 1], &[0, 13, 99], &[0, u32::MAX]] {
        assert_eq!(count_parts(tags, 0), Err(refusal(17, 0)));
        assert_eq!(count_parts(&tags[1..], 0).map(|_| ()), Ok(()));
    }
    let full: Vec<u32> = (0..32).collect();
    assert_eq!(count_parts(&full, 0), Err(refusal(17, 0)));
}

#[test]
fn refusals_come_in_the_order_2_5_6_17() {
    let above: Vec<u32> = (1..=33).collect();
    let with_0: Vec<u32> = (0..=32).collect();
    let falls_at_32 = [&above[..32], &[32]].concat();
    for (tags, due) in [
        // 5; 5 and 6; 5 and 17; 5, 6 and 17.
        (&above[..], refusal(5, 0)),
        (&falls_at_32, refusal(5, 0)),
        (&with_0, refusal(5, 0)),
        (&[0; 33], refusal(5, 0)),
        // 6; 6 and 17, at two places.
        (&[5, 5], refusal(6, 1)),
        (&[0, 0], refusal(6, 1)),
        (&[0, 13, 13], refusal(6, 2)),
        (&[0; 32], refusal(6, 1)),
        // 17, and that 13 has no place but 0 under seed 0, as 0 would.
        (&[0, 13], refusal(17, 0)),
    ] {
        for seed in [0, 65_535] {
            assert_eq!(count_parts(tags, seed), Err(due), "{tags:?}");
        }
        // 2 comes before each of them.
        for seed in [65_536, u32::MAX] {
            assert_eq!(count_parts(tags, seed), Err(refusal(2, 0)), "{tags:?}");
        }
    }
}

#[test]
fn the_answer_over_the_c_boundary_is_twice_the_parts_and_1_if_the_seed_serves() {
    assert_eq!(answer_parts(&[], 0), 1);
    assert_eq!(answer_parts(&[1, 2], 0), 3);
    assert_eq!(answer_parts(&[1, 3], 0), 4);
    assert_eq!(answer_parts(&[1, 3], 1), 3);
    assert_eq!(answer_parts(&[1, 3], 65_536), 2 << 32);
    assert_eq!(answer_parts(&[1; 33], 0), 5 << 32);
    assert_eq!(answer_parts(&[1, 3, 3], 0), (6 << 32) + 2);
    assert_eq!(answer_parts(&[0, 3], 0), 17 << 32);
    // 32 parts with a tag each, and 32 of which one has all tags.
    let (seed, tags) = tags_of(&(0..32).map(|place| [place, place]).collect::<Vec<Key>>());
    assert_eq!(answer_parts(&tags, seed), 65);
    let (seed, tags) = tags_of(&[[7, 7]; 32]);
    assert_eq!(answer_parts(&tags, seed), 64);
}
