//! Each refusal with its place, in the order of the checks: where two conditions hold, the earlier decides.

use crate::common::{group_without_seed, refusal, tags_of_group, tags_of_groups};
use model::{build, image_of, place_group, place_of_one_tag};

#[test]
fn place_of_one_tag_refuses_with_1_then_2_then_3() {
    assert_eq!(place_of_one_tag(0, 65_536, 2, 9), Err(refusal(1, 0)));
    assert_eq!(place_of_one_tag(33, 65_536, 2, 9), Err(refusal(1, 0)));
    assert_eq!(place_of_one_tag(u32::MAX, 0, 0, 9), Err(refusal(1, 0)));
    assert_eq!(place_of_one_tag(32, 65_536, 2, 9), Err(refusal(2, 0)));
    assert_eq!(place_of_one_tag(1, u32::MAX, 2, 9), Err(refusal(2, 0)));
    assert_eq!(place_of_one_tag(1, 65_535, 2, 9), Err(refusal(3, 0)));
    assert_eq!(place_of_one_tag(32, 0, u32::MAX, 9), Err(refusal(3, 0)));
    assert_eq!(place_of_one_tag(1, 65_535, 1, u32::MAX), Ok(0));
    for n in [24, 25, 31, 32] {
        assert!(place_of_one_tag(n, 65_535, 1, u32::MAX).is_ok());
    }
}

#[test]
fn placing_refuses_with_4_then_5_then_6_then_7() {
    assert_eq!(place_group(&[5; 33], 0), Err(refusal(4, 0)));
    assert_eq!(place_group(&[5; 33], 65_537), Err(refusal(4, 0)));
    assert_eq!(place_group(&[5; 33], 1), Err(refusal(5, 0)));
    assert_eq!(place_group(&[5; 32], 1), Err(refusal(6, 1)));
    let no_seed_and_not_ascending = [1, 1_073_741_824, 1_073_741_824];
    assert_eq!(
        place_group(&no_seed_and_not_ascending, 1),
        Err(refusal(6, 2))
    );
    assert_eq!(
        place_group(&group_without_seed(), 65_536),
        Err(refusal(7, 0))
    );
}

#[test]
fn refusal_6_names_the_first_index_that_is_not_above_the_one_before() {
    assert_eq!(place_group(&[1, 3, 2, 1], 9), Err(refusal(6, 2)));
    assert_eq!(place_group(&[7, 6], 9), Err(refusal(6, 1)));
    // 2 is above the tag before it, though not above all before.
    assert_eq!(image_of(&[3, 1, 2, 2], 1, 9), Err(refusal(6, 1)));
    let mut tags: Vec<u32> = (1..=4_096).collect();
    tags[4_095] = 4_095;
    assert_eq!(image_of(&tags, 512, 1), Err(refusal(6, 4_095)));
}

#[test]
fn building_refuses_with_8_then_4_then_5_then_6_then_10_then_7_then_9() {
    let mut none: [u8; 0] = [];
    let mut all = vec![0; 60_000];
    let equal = vec![5; 4_097];
    for groups in [0, 513, 99_999, u32::MAX] {
        assert_eq!(build(&equal, groups, 0, &mut none), Err(refusal(8, 0)));
    }
    for limit in [0, 65_537] {
        assert_eq!(build(&equal, 512, limit, &mut none), Err(refusal(4, 0)));
    }
    assert_eq!(build(&equal, 1, 1, &mut none), Err(refusal(5, 0)));
    assert_eq!(build(&equal[..4_096], 1, 1, &mut none), Err(refusal(6, 1)));

    // Group 0 has no seed below 1, group 1 has 33 tags.
    let mut tags = [tags_of_group(0, 2, 32), tags_of_group(1, 2, 33)].concat();
    tags.sort_unstable();
    assert_eq!(build(&tags, 2, 1, &mut none), Err(refusal(10, 1)));
    assert_eq!(build(&tags, 2, 1, &mut all), Err(refusal(10, 1)));
    let last_of_group_1 = *tags_of_group(1, 2, 33).last().unwrap();
    tags.retain(|&tag| tag != last_of_group_1);
    assert_eq!(build(&tags, 2, 1, &mut none), Err(refusal(7, 0)));
    assert_eq!(build(&tags, 2, 1, &mut all), Err(refusal(7, 0)));
    assert_eq!(build(&tags, 2, 65_536, &mut none), Err(refusal(9, 0)));
}

#[test]
fn refusals_10_and_7_name_the_lowest_such_group() {
    let list = |parts: &[(u32, usize)]| tags_of_groups(parts, 5);
    assert_eq!(
        image_of(&list(&[(1, 32), (2, 33), (4, 40)]), 5, 1),
        Err(refusal(10, 2))
    );
    assert_eq!(
        image_of(&list(&[(0, 1), (4, 33)]), 5, 1),
        Err(refusal(10, 4))
    );
    // 32 tags are not served by seed 0; one tag always is.
    assert_eq!(
        image_of(&list(&[(0, 1), (1, 32), (3, 32)]), 5, 1),
        Err(refusal(7, 1))
    );
    assert_eq!(
        image_of(&list(&[(0, 1), (4, 32)]), 5, 1),
        Err(refusal(7, 4))
    );
}
