//! Placing a group through the binding: groups of every size, a word that uses all 32 bits, and the
//! refusals, each with the cell lent as it was. And the largest group in an image.

use tag_index::{raw, BuildError, Index, Placement, Reason, Refusal, LARGEST_GROUP};

/// The place of a tag in a group of n tags: document 01's formula.
fn place_of(n: usize, seed: u32, choice: u32, tag: u32) -> u64 {
    let multiplier = (4 * seed + 2 * choice + 1).wrapping_mul(2_654_435_761);
    (u64::from(multiplier.wrapping_mul(tag)) * n as u64) >> 32
}

/// A group of n tags that one sequence alone fills under seed 0: the lowest tag has place 0 twice, and
/// the one with index i the places i / 3 and i, so each takes its last.
///
/// The second multiplier of seed 0 is three times the first, so other pairs of places hardly come.
fn tree(n: usize) -> Vec<u32> {
    let mut tags = Vec::new();
    let mut tag = 0;
    for index in 0..n as u64 {
        let fits =
            |tag: &u32| [0, 1].map(|choice| place_of(n, 0, choice, *tag)) == [index / 3, index];
        tag = (tag + 1..).find(fits).expect("there is such a tag");
        tags.push(tag);
    }
    tags
}

#[test]
fn the_last_of_32_tags_has_bit_31() {
    // From index 1 on each tag takes its second place.
    for (n, word) in [
        (0, 0),
        (1, 0),
        (2, 2),
        (31, 2_147_483_646),
        (32, 4_294_967_294),
    ] {
        let placement = Placement { seed: 0, word };
        for limit in [1, 65_536] {
            assert_eq!(tag_index::place_group(&tree(n), limit), Ok(placement));
        }
    }
}

#[test]
fn the_fewest_second_places_are_taken_and_between_equals_the_lowest_tag_decides() {
    for (tags, word) in [
        // The words 1 and 6 fill them: one second place, though the lowest tag has it.
        (&[1, 2, 12][..], 0b001),
        // 1 and 2, with one second place each.
        (&[599, 1_193], 0b10),
        // 5, 14, 17 and 26: of 5 and 17 the one that gives the tag with index 2 its first place.
        (&[18, 44, 56, 59, 145], 0b10001),
        // Tag 1 has one place only.
        (&[1, 2], 0b00),
    ] {
        let placement = Placement { seed: 0, word };
        assert_eq!(tag_index::place_group(tags, 1), Ok(placement));
    }
}

#[test]
fn no_two_tags_of_a_group_have_the_same_place() {
    for n in 0..=LARGEST_GROUP {
        let tags: Vec<u32> = (1..=n as u32).map(|step| step * step * 104_729).collect();
        let Placement { seed, word } = tag_index::place_group(&tags, 65_536).unwrap();
        assert_eq!(u64::from(word) >> n, 0);
        let choice = |index: usize| word >> index & 1;
        let mut places: Vec<u64> = tags
            .iter()
            .enumerate()
            .map(|(index, &tag)| place_of(n, seed, choice(index), tag))
            .collect();
        places.sort_unstable();
        assert!(places.into_iter().eq(0..n as u64), "{n} tags, seed {seed}");
        // No lower limit serves, and the limit right above the seed does.
        let placement = tag_index::place_group(&tags, seed + 1);
        assert_eq!(placement, Ok(Placement { seed, word }));
        let below = tag_index::place_group(&tags, seed).unwrap_err();
        let reason = match seed {
            0 => Reason::LimitOutOfRange,
            _ => Reason::NoSeed,
        };
        assert_eq!(below, Refusal { reason, place: 0 });
    }
}

#[test]
fn refusals_come_in_order_and_leave_the_cell_alone() {
    let tags = |count: u32| (1..=count).collect::<Vec<u32>>();
    let mut falls_at_31 = tags(32);
    falls_at_31[31] = 31;
    // Tags 1 and 3 have one place between them under seed 0.
    for (tags, limit, reason, place) in [
        (vec![], 0, Reason::LimitOutOfRange, 0),
        (vec![1], 65_537, Reason::LimitOutOfRange, 0),
        (vec![5; 33], u32::MAX, Reason::LimitOutOfRange, 0),
        (tags(33), 65_536, Reason::TooManyTags, 0),
        (vec![5; 33], 1, Reason::TooManyTags, 0),
        (vec![0; 100], 1, Reason::TooManyTags, 0),
        (vec![1, 3, 3, 3], 1, Reason::NotAscending, 2),
        (falls_at_31, 1, Reason::NotAscending, 31),
        (vec![0, 0], 1, Reason::NotAscending, 1),
        (vec![1, 0], 1, Reason::NotAscending, 1),
        (vec![0], 1, Reason::UnwiredTag, 0),
        (vec![0, 1, 3], 1, Reason::UnwiredTag, 0),
        (vec![1, 3], 1, Reason::NoSeed, 0),
        (tags(32), 1, Reason::NoSeed, 0),
    ] {
        let refusal = Refusal { reason, place };
        assert_eq!(tag_index::place_group(&tags, limit), Err(refusal));
        for kept in [0, 9, u32::MAX] {
            let mut word = [kept];
            let answer = raw::place_group(&tags, limit, &mut word);
            assert_eq!(answer >> 32, reason.number().into());
            assert_eq!(answer as u32, place);
            assert_eq!(word, [kept]);
        }
    }
}

#[test]
fn the_cell_becomes_the_word_whatever_it_was() {
    for before in [0, 9, u32::MAX] {
        for (n, after) in [(0, 0), (1, 0), (2, 2), (32, 4_294_967_294)] {
            let mut word = [before];
            assert_eq!(raw::place_group(&tree(n), 1, &mut word), 0);
            assert_eq!(word, [after]);
        }
    }
}

#[test]
fn an_image_holds_a_group_of_32_tags_and_none_of_33() {
    let tags = tree(LARGEST_GROUP);
    let index = Index::new(tag_index::image_of(1, 1, &tags).unwrap()).unwrap();
    for (place, &tag) in tags.iter().enumerate() {
        assert_eq!(index.lookup(tag), Some(place as u32));
    }
    let refusal = Refusal {
        reason: Reason::GroupTooLarge,
        place: 0,
    };
    let refused = tag_index::image_of(1, 1, &tree(LARGEST_GROUP + 1));
    assert_eq!(refused, Err(BuildError::Refused(refusal)));
}
