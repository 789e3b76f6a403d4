//! The worked values of document 01, one test each, and the whole case.

use crate::common::{fills, group_without_seed, refusal, WHOLE_CASE_IMAGE, WHOLE_CASE_TEXT};
use model::hash::group_of;
use model::{build, check, image_of, lookup, place_group, place_of_one_tag, print_index, Found};

#[test]
fn value_1_tags_1_and_2_have_seed_0_and_word_0() {
    assert_eq!(place_group(&[1, 2], 1), Ok((0, 0)));
    assert_eq!(place_of_one_tag(2, 0, 0, 1), Ok(1));
    assert_eq!(place_of_one_tag(2, 0, 0, 2), Ok(0));
    let image = image_of(&[1, 2], 1, 1).unwrap();
    assert_eq!(image, b"    2    1\n    0    0\n         2\n         1\n");
    assert_eq!(lookup(&image, 1), Ok(Found::Number(1)));
    assert_eq!(lookup(&image, 2), Ok(Found::Number(0)));
}

#[test]
fn value_2_tags_1_and_3_have_no_seed_below_1() {
    assert_eq!(place_group(&[1, 3], 1), Err(refusal(7, 0)));
    assert_eq!(image_of(&[1, 3], 1, 1), Err(refusal(7, 0)));
}

#[test]
fn value_3_tags_1_and_3_have_seed_1_and_word_2() {
    assert_eq!(place_group(&[1, 3], 2), Ok((1, 2)));
    assert_eq!(place_of_one_tag(2, 1, 0, 1), Ok(0));
    assert_eq!(place_of_one_tag(2, 1, 1, 1), Ok(0));
    assert_eq!(place_of_one_tag(2, 1, 0, 3), Ok(0));
    assert_eq!(place_of_one_tag(2, 1, 1, 3), Ok(1));
    // "The sequence 1, 1 fills too and is not taken."
    assert!(fills(&[1, 3], 1, 3));
}

// "The two small cases of document 01 with 0 and one other tag, and the one that no seed can fill,
// become refusals of this kind." (document 02, §1)

#[test]
fn value_4_tags_0_and_half_are_refused_with_17() {
    assert_eq!(place_group(&[0, 2_147_483_648], 1), Err(refusal(17, 0)));
    assert_eq!(image_of(&[0, 2_147_483_648], 1, 1), Err(refusal(17, 0)));
}

#[test]
fn value_5_tags_0_and_a_quarter_are_refused_with_17() {
    assert_eq!(place_group(&[0, 1_073_741_824], 1), Err(refusal(17, 0)));
    assert_eq!(image_of(&[0, 1_073_741_824], 1, 1), Err(refusal(17, 0)));
}

#[test]
fn value_6_three_quarter_tags_are_refused_with_17_under_every_limit() {
    let tags = [0, 1_073_741_824, 3_221_225_472];
    for limit in 1..=65_536 {
        assert_eq!(place_group(&tags, limit), Err(refusal(17, 0)));
        assert_eq!(image_of(&tags, 1, limit), Err(refusal(17, 0)));
    }
    // "since place 1 is never reached": 7 would be due too, and comes later.
    for seed in 0..65_536 {
        for choice in 0..2 {
            for tag in tags {
                assert_ne!(place_of_one_tag(3, seed, choice, tag), Ok(1));
            }
        }
    }
}

#[test]
fn value_7_the_empty_list_has_an_image_of_22_bytes() {
    assert_eq!(image_of(&[], 1, 1).unwrap(), b"    0    1\n    0    0\n");
}

#[test]
fn value_8_tags_1_2_3_fall_in_groups_1_0_1() {
    assert_eq!([1, 2, 3].map(|tag| group_of(tag, 2)), [1, 0, 1]);
}

#[test]
fn value_9_a_repeated_tag_is_refused_at_index_1() {
    assert_eq!(image_of(&[5, 5], 1, 1), Err(refusal(6, 1)));
    assert_eq!(place_group(&[5, 5], 1), Err(refusal(6, 1)));
}

// "the case of 24 and 25 tags [..] reads 32 and 33" (document 02, §2)

#[test]
fn value_10_32_tags_pass_to_the_search_and_33_do_not() {
    let served: Vec<u32> = (1..=32).collect();
    assert!(place_group(&served, 65_536).is_ok());
    assert!(image_of(&served, 1, 65_536).is_ok());
    // 7 comes from the search itself.
    assert_eq!(
        place_group(&group_without_seed(), 65_536),
        Err(refusal(7, 0))
    );
    assert_eq!(
        image_of(&group_without_seed(), 1, 65_536),
        Err(refusal(7, 0))
    );

    let one_more: Vec<u32> = (1..=33).collect();
    assert_eq!(image_of(&one_more, 1, 65_536), Err(refusal(10, 0)));
    assert_eq!(place_group(&one_more, 65_536), Err(refusal(5, 0)));
}

#[test]
fn value_11_the_whole_case_needs_a_buffer_of_66_bytes() {
    assert_eq!(build(&[1, 2, 3], 2, 9, &mut [0; 65]), Err(refusal(9, 0)));
    assert_eq!(build(&[1, 2, 3], 2, 9, &mut [0; 66]), Ok(66));
}

#[test]
fn value_12_the_limit_is_1_to_65536() {
    for limit in [1, 65_536] {
        assert_eq!(place_group(&[1, 2], limit), Ok((0, 0)));
        assert!(image_of(&[1, 2], 1, limit).is_ok());
    }
    for limit in [0, 65_537, 99_999, u32::MAX] {
        assert_eq!(place_group(&[1, 2], limit), Err(refusal(4, 0)));
        assert_eq!(image_of(&[1, 2], 1, limit), Err(refusal(4, 0)));
    }
}

#[test]
fn the_whole_case_is_printed_built_checked_and_looked_up() {
    assert_eq!(print_index(WHOLE_CASE_TEXT), WHOLE_CASE_IMAGE);
    assert_eq!(image_of(&[1, 2, 3], 2, 9).unwrap(), WHOLE_CASE_IMAGE);
    assert_eq!(check(WHOLE_CASE_IMAGE), Ok(()));
    assert_eq!(lookup(WHOLE_CASE_IMAGE, 2), Ok(Found::Number(0)));
    assert_eq!(lookup(WHOLE_CASE_IMAGE, 1), Ok(Found::Number(1)));
    assert_eq!(lookup(WHOLE_CASE_IMAGE, 3), Ok(Found::Number(2)));
    assert_eq!(lookup(WHOLE_CASE_IMAGE, 4), Ok(Found::Unknown));
}
