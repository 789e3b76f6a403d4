//! Document 02, §1: "Tag 0 belongs to nobody." Where 17 comes, and what comes before and after it.

use crate::common::{
    group_without_seed, places, refusal, tags_of_group, with_line, FIVE_ON_FOUR_PLACES,
    WHOLE_CASE_IMAGE, WITHOUT_PLACE_2,
};
use model::hash::group_of;
use model::line::line_of_tag;
use model::placing::serves;
use model::{build, check, image_of, list_text, lookup, place_group, place_of_one_tag};
use model::{print_index, read_list, Found};
use random::Random;

/// A slot line that holds tag 0.
const HOLDS_0: &[u8; 11] = b"         0\n";

/// Tag 0 and so many other tags of group 0, in `groups` groups: ascending.
fn with_0(groups: u32, others: usize) -> Vec<u32> {
    let mut tags = vec![0];
    tags.extend(tags_of_group(0, groups, others));
    tags
}

#[test]
fn a_list_that_begins_with_0_is_refused_with_17_at_place_0() {
    for tags in [&[0][..], &[0, 1], &[0, 1, 2, 3], &[0, u32::MAX]] {
        assert_eq!(place_group(tags, 9), Err(refusal(17, 0)));
        for groups in [1, 2, 512] {
            assert_eq!(image_of(tags, groups, 9), Err(refusal(17, 0)));
        }
    }
    // The same lists without it are served.
    assert_eq!(place_group(&[1], 9), Ok((0, 0)));
    assert!(image_of(&[1, 2, 3], 2, 9).is_ok());
}

#[test]
fn the_empty_list_has_no_first_tag() {
    assert_eq!(place_group(&[], 1), Ok((0, 0)));
    assert_eq!(image_of(&[], 1, 1).unwrap().len(), 22);
}

#[test]
fn a_0_that_is_not_first_is_refused_with_6_before_17() {
    assert_eq!(place_group(&[0, 0], 9), Err(refusal(6, 1)));
    assert_eq!(image_of(&[0, 0], 1, 9), Err(refusal(6, 1)));
    assert_eq!(place_group(&[1, 0], 9), Err(refusal(6, 1)));
    assert_eq!(image_of(&[1, 2, 3, 0], 2, 9), Err(refusal(6, 3)));
    // The first tag is 0, and a later one is not above the one before.
    assert_eq!(place_group(&[0, 5, 5], 9), Err(refusal(6, 2)));
    assert_eq!(image_of(&[0, 5, 4], 1, 9), Err(refusal(6, 2)));
}

#[test]
fn placing_refuses_with_4_5_and_6_before_17_and_with_17_before_7() {
    for limit in [0, 65_537] {
        assert_eq!(place_group(&[0, 1], limit), Err(refusal(4, 0)));
    }
    assert_eq!(place_group(&with_0(1, 32), 9), Err(refusal(5, 0)));
    assert_eq!(place_group(&with_0(1, 31), 9), Err(refusal(17, 0)));
    // 0 and 13 have the place 0 only, under seed 0: 7 would be due too.
    let tags = [0, 13];
    assert_eq!(places(&tags, 0), [[0, 0], [0, 0]]);
    assert!(!serves(&tags, 0));
    assert_eq!(place_group(&tags, 1), Err(refusal(17, 0)));
}

#[test]
fn building_refuses_with_8_4_5_and_6_before_17_and_with_17_before_9_10_and_7() {
    let mut none: [u8; 0] = [];
    let mut all = vec![0xA5; 60_000];
    for groups in [0, 513] {
        assert_eq!(build(&[0], groups, 0, &mut none), Err(refusal(8, 0)));
    }
    for limit in [0, 65_537] {
        assert_eq!(build(&[0], 1, limit, &mut none), Err(refusal(4, 0)));
    }
    let many: Vec<u32> = (0..4_097).collect();
    assert_eq!(build(&many, 1, 1, &mut none), Err(refusal(5, 0)));
    assert_eq!(build(&[0, 7, 7], 1, 1, &mut none), Err(refusal(6, 2)));

    // 17 and 9; 17, 9 and 10; 17 and 10 in a buffer that is long enough, at group 0 and at another.
    assert_eq!(build(&[0, 7], 1, 9, &mut none), Err(refusal(17, 0)));
    assert_eq!(build(&many[..4_096], 1, 9, &mut none), Err(refusal(17, 0)));
    assert_eq!(build(&with_0(1, 32), 1, 9, &mut all), Err(refusal(17, 0)));
    let mut large_group_1 = vec![0];
    large_group_1.extend(tags_of_group(1, 2, 33));
    assert_eq!(build(&large_group_1, 2, 9, &mut all), Err(refusal(17, 0)));
    assert_eq!(
        build(&large_group_1[1..], 2, 9, &mut all),
        Err(refusal(10, 1))
    );

    // 17 and 7, in the group of tag 0 and in another one.
    assert_eq!(build(&[0, 13], 1, 1, &mut all), Err(refusal(17, 0)));
    let mut unserved_group_1 = vec![0];
    unserved_group_1.extend(tags_of_group(1, 2, 32));
    assert_eq!(
        build(&unserved_group_1, 2, 1, &mut all),
        Err(refusal(17, 0))
    );
    assert_eq!(
        build(&unserved_group_1[1..], 2, 1, &mut all),
        Err(refusal(7, 1))
    );
    assert!(all.iter().all(|&byte| byte == 0xA5));
}

#[test]
fn reading_takes_tag_0_as_any_other_and_building_refuses_it() {
    let text = list_text(2, 9, &[0, 1, 2]);
    assert_eq!(read_list(&text, 3).unwrap().tags, [0, 1, 2]);
    assert_eq!(print_index(&text), b"   17    0\n");
}

#[test]
fn place_of_one_tag_still_takes_tag_0() {
    for n in 1..=32 {
        for seed in [0, 1, 65_535] {
            for choice in 0..2 {
                assert_eq!(place_of_one_tag(n, seed, choice, 0), Ok(0));
            }
        }
    }
}

#[test]
fn checking_names_the_lowest_slot_that_holds_0() {
    for slots in 1..8 {
        // Bit j of `slots` says that slot j holds 0.
        let mut image = WHOLE_CASE_IMAGE.to_vec();
        for slot in (0..3).filter(|slot| slots >> slot & 1 == 1) {
            image = with_line(&image, 3 + slot, HOLDS_0);
        }
        let lowest = u64::from((slots as u32).trailing_zeros());
        assert_eq!(check(&image), Err(refusal(17, lowest)));
    }
    // In a large image at every slot.
    let mut random = Random::new(12);
    let tags = random.tags(300);
    let image = image_of(&tags, 64, 65_536).unwrap();
    for slot in 0..300 {
        let changed = with_line(&image, 65 + slot, HOLDS_0);
        assert_eq!(check(&changed), Err(refusal(17, slot as u64)));
    }
}

#[test]
fn a_tag_0_that_stands_at_its_place_in_its_group_is_refused_all_the_same() {
    // The image that worked value 4 had.
    let image = b"    2    1\n    0    0\n         0\n2147483648\n";
    assert_eq!(check(image), Err(refusal(17, 0)));
    // The same with another tag, which is accepted.
    assert_eq!(
        image_of(&[13, 1 << 31], 1, 1),
        Ok(b"    2    1\n    0    0\n        13\n2147483648\n".to_vec())
    );
}

#[test]
fn checking_comes_to_11_and_12_before_17_before_13_14_and_15() {
    // The length; line 0; a group line, a slot line below and one above the slot that holds 0.
    let image = with_line(WHOLE_CASE_IMAGE, 4, HOLDS_0);
    assert_eq!(check(&image), Err(refusal(17, 1)));
    assert_eq!(check(&image[..65]), Err(refusal(11, 0)));
    assert_eq!(
        check(&with_line(&image, 0, b"    3    0\n")),
        Err(refusal(12, 0))
    );
    for (line, malformed) in [
        (2, b"    1     \n"),
        (3, b"        02\n"),
        (5, b"         x\n"),
    ] {
        assert_eq!(
            check(&with_line(&image, line, malformed)),
            Err(refusal(12, line as u64))
        );
    }
    // 17 and 13, at each group and of each kind; without the 0 it is 13.
    for (line, faulty, group) in [
        (1, b"    1    0\n", 0),
        (2, b"    4    1\n", 1),
        (2, b"99999    1\n", 0),
    ] {
        let both = with_line(&image, line, faulty);
        assert_eq!(check(&both), Err(refusal(17, 1)));
        let without = with_line(&both, 4, b"         1\n");
        assert_eq!(check(&without), Err(refusal(13, group)));
    }
    // 17 and 14, the wrong slot lower and higher: slot 0 holds a tag of group 1, slot 2 one of group 0.
    for (line, wrong) in [(3, b"         3\n"), (5, b"         4\n")] {
        let both = with_line(&image, line, wrong);
        assert_eq!(check(&both), Err(refusal(17, 1)));
        let without = with_line(&both, 4, b"         1\n");
        assert_eq!(check(&without), Err(refusal(14, line as u64 - 3)));
    }
    // 17 and 15: a tag of group 0 stands at both its places, and slot 2 is group 1.
    let one = *tags_of_group(1, 2, 1).first().unwrap();
    let group_0 = tags_of_group(0, 2, 400);
    let twice = *group_0
        .iter()
        .find(|&&tag| places(&[tag, tag], 0)[0] == [0, 1])
        .unwrap();
    let lines = [
        b"    3    2\n    0    0\n    2    0\n".to_vec(),
        line_of_tag(twice),
        line_of_tag(twice),
    ]
    .concat();
    let repeated = [&lines[..], &line_of_tag(one)].concat();
    assert_eq!(check(&repeated), Err(refusal(15, 1)));
    assert_eq!(check(&[&lines[..], HOLDS_0].concat()), Err(refusal(17, 2)));
}

#[test]
fn looking_up_0_answers_unknown_whatever_stands_behind_line_0() {
    let mut random = Random::new(13);
    let mut images = vec![WHOLE_CASE_IMAGE.to_vec(), image_of(&[], 3, 1).unwrap()];
    images.push(image_of(&random.tags(120), 16, 65_536).unwrap());
    for image in &images {
        assert_eq!(lookup(image, 0), Ok(Found::Unknown));
        // Each byte behind line 0 on its own, and all of them.
        for at in 11..image.len() {
            let mut changed = image.clone();
            changed[at] ^= 1 + random.below(255) as u8;
            assert_eq!(lookup(&changed, 0), Ok(Found::Unknown));
        }
        let mut noise = image.clone();
        noise[11..].fill_with(|| random.next_u64() as u8);
        assert_eq!(lookup(&noise, 0), Ok(Found::Unknown));
    }
}

#[test]
fn looking_up_0_answers_unknown_though_its_group_is_malformed_or_faulty_or_a_slot_holds_0() {
    assert_eq!(group_of(0, 2), 0);
    let own = with_line(WHOLE_CASE_IMAGE, 1, b"    0   00\n");
    let next = with_line(WHOLE_CASE_IMAGE, 2, b"    1     \n");
    let faulty = with_line(WHOLE_CASE_IMAGE, 1, b"    1    0\n");
    let past_n = with_line(WHOLE_CASE_IMAGE, 2, b"    4    1\n");
    let slot = with_line(WHOLE_CASE_IMAGE, 3, b"          \n");
    // Tag 2 is of the same group: its lookup is refused.
    for (image, refused) in [
        (&own, refusal(12, 1)),
        (&next, refusal(12, 2)),
        (&faulty, refusal(13, 0)),
        (&past_n, refusal(13, 0)),
        (&slot, refusal(12, 3)),
    ] {
        assert_eq!(lookup(image, 0), Ok(Found::Unknown));
        assert_eq!(lookup(image, 2), Err(refused));
    }
    for line in 3..6 {
        let holds_0 = with_line(WHOLE_CASE_IMAGE, line, HOLDS_0);
        assert_eq!(lookup(&holds_0, 0), Ok(Found::Unknown));
    }
}

#[test]
fn looking_up_0_is_refused_with_11_12_and_11_as_any_other() {
    for length in 0..11 {
        assert_eq!(lookup(&WHOLE_CASE_IMAGE[..length], 0), Err(refusal(11, 0)));
    }
    for header in [
        b"    3    0\n",
        b" 4097    2\n",
        b"    3  513\n",
        b"   03    2\n",
    ] {
        let damaged = with_line(WHOLE_CASE_IMAGE, 0, header);
        assert_eq!(lookup(&damaged, 0), Err(refusal(12, 0)));
        assert_eq!(lookup(&damaged[..40], 0), Err(refusal(12, 0)));
    }
    for length in 11..66 {
        assert_eq!(lookup(&WHOLE_CASE_IMAGE[..length], 0), Err(refusal(11, 0)));
    }
    let longer = [WHOLE_CASE_IMAGE, b"\n"].concat();
    assert_eq!(lookup(&longer, 0), Err(refusal(11, 0)));
}

#[test]
fn groups_without_tag_0_that_no_seed_serves() {
    let touched = |tags: &[u32], seed| {
        let mut touched: Vec<u32> = places(tags, seed).into_iter().flatten().collect();
        touched.sort_unstable();
        touched.dedup();
        touched
    };
    for seed in 0..65_536 {
        // Every seed is dropped early.
        assert_eq!(touched(&WITHOUT_PLACE_2, seed), [0, 1, 3, 4]);
        // No seed is dropped early, and each needs the full test.
        assert_eq!(touched(&FIVE_ON_FOUR_PLACES, seed), [0, 1, 2, 3, 4, 5]);
        for (tag, pair) in FIVE_ON_FOUR_PLACES
            .iter()
            .zip(places(&FIVE_ON_FOUR_PLACES, seed))
        {
            let four = pair.iter().all(|place| [0, 2, 3, 5].contains(place));
            assert_eq!(four, *tag != 2 << 29);
        }
        // Here too every seed is dropped early.
        assert!(touched(&group_without_seed(), seed).len() < 32);
    }
    for tags in [
        &WITHOUT_PLACE_2[..],
        &FIVE_ON_FOUR_PLACES,
        &group_without_seed(),
    ] {
        assert_eq!(place_group(tags, 65_536), Err(refusal(7, 0)));
        assert_eq!(image_of(tags, 1, 65_536), Err(refusal(7, 0)));
    }
}
