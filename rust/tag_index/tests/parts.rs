//! Counting parts through the binding: which seeds serve, how many parts there are, agreement with
//! placing, and the refusals.

use tag_index::{raw, Parts, Placement, Reason, Refusal, LARGEST_GROUP};

const NOT_SERVED: bool = false;
const SERVED: bool = true;

/// So many different tags, ascending, of no pattern.
fn tags(count: usize) -> Vec<u32> {
    let mut tags: Vec<u32> = (1..=count as u32)
        .map(|k| k.wrapping_mul(0x9E37_79B1) ^ 0x5555)
        .collect();
    tags.sort_unstable();
    tags
}

#[test]
fn seeds_that_serve_and_seeds_that_do_not_have_their_parts() {
    for (tags, seed, serves, number) in [
        (&[][..], 0, SERVED, 0),
        (&[], 65_535, SERVED, 0),
        (&[7], 0, SERVED, 1),
        (&[u32::MAX], 65_535, SERVED, 1),
        // Tag 1 has one place only, and tag 2 both.
        (&[1, 2], 0, SERVED, 1),
        // Nobody has place 0, which is a part by itself.
        (&[1, 3], 0, NOT_SERVED, 2),
        (&[1, 3], 1, SERVED, 1),
        // Both tags have the same two places: a cycle.
        (&[599, 1_193], 0, SERVED, 1),
        // A cycle of three; a cycle of three and one of two.
        (&[1, 2, 12], 0, SERVED, 1),
        (&[18, 44, 56, 59, 145], 0, SERVED, 2),
        // Two pairs of tags on two places each.
        (&[1, 5, 14, 18], 0, SERVED, 2),
    ] {
        let parts = Parts { serves, number };
        assert_eq!(tag_index::count_parts(tags, seed), Ok(parts), "{tags:?}");
        let answer = u64::from(2 * number + u32::from(serves));
        assert_eq!(raw::count_parts(tags, seed), answer);
    }
}

#[test]
fn the_seed_that_placing_takes_serves_and_no_lower_one() {
    for n in 0..=LARGEST_GROUP {
        let tags = tags(n);
        let Placement { seed: least, .. } = tag_index::place_group(&tags, 65_536).unwrap();
        for seed in 0..=least {
            let parts = tag_index::count_parts(&tags, seed).unwrap();
            assert_eq!(parts.serves, seed == least, "{n} tags, seed {seed}");
            assert!(parts.number as usize <= n);
        }
    }
}

#[test]
fn as_many_sequences_fill_as_the_parts_say() {
    let place_of = |n: usize, seed: u32, choice: u32, tag: u32| {
        let multiplier = (4 * seed + 2 * choice + 1).wrapping_mul(2_654_435_761);
        (u64::from(multiplier.wrapping_mul(tag)) * n as u64) >> 32
    };
    let mut met = [0; 2];
    for n in 0..=8 {
        for seed in (0..300).chain(65_500..65_536) {
            let tags = tags(n);
            let filling = (0..1u32 << n).filter(|word| {
                let mut places: Vec<u64> = (tags.iter().enumerate())
                    .map(|(index, &tag)| place_of(n, seed, word >> index & 1, tag))
                    .collect();
                places.sort_unstable();
                places.dedup();
                places.len() == n
            });
            let parts = tag_index::count_parts(&tags, seed).unwrap();
            assert_eq!(parts.filling_sequences(), filling.count() as u64);
            met[usize::from(parts.serves)] += 1;
        }
    }
    assert!(met.iter().all(|&count| count > 300), "{met:?}");
}

#[test]
fn refusals_come_in_order() {
    let ascending = |count: u32| (1..=count).collect::<Vec<u32>>();
    let mut falls_at_31 = ascending(32);
    falls_at_31[31] = 31;
    for (tags, seed, reason, place) in [
        (vec![], 65_536, Reason::SeedOutOfRange, 0),
        (vec![1, 3], u32::MAX, Reason::SeedOutOfRange, 0),
        (vec![5; 33], 65_536, Reason::SeedOutOfRange, 0),
        (vec![5, 5], 65_536, Reason::SeedOutOfRange, 0),
        (vec![0], 65_536, Reason::SeedOutOfRange, 0),
        (ascending(33), 65_535, Reason::TooManyTags, 0),
        (vec![5; 33], 0, Reason::TooManyTags, 0),
        (vec![0; 100], 0, Reason::TooManyTags, 0),
        (vec![1, 3, 3, 3], 0, Reason::NotAscending, 2),
        (falls_at_31, 0, Reason::NotAscending, 31),
        (vec![0, 0], 0, Reason::NotAscending, 1),
        (vec![1, 0], 0, Reason::NotAscending, 1),
        (vec![0], 0, Reason::UnwiredTag, 0),
        (vec![0, 1, 3], 65_535, Reason::UnwiredTag, 0),
    ] {
        let refusal = Refusal { reason, place };
        assert_eq!(tag_index::count_parts(&tags, seed), Err(refusal));
        let answer = (u64::from(reason.number()) << 32) + u64::from(place);
        assert_eq!(raw::count_parts(&tags, seed), answer);
    }
    // One step before: the greatest seed, and as many tags as a group holds.
    assert!(tag_index::count_parts(&[1, 3], 65_535).is_ok());
    assert!(tag_index::count_parts(&ascending(32), 65_535).is_ok());
}
