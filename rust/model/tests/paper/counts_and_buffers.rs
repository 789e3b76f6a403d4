//! Edges of counts, and what building leaves in a lent buffer.

use crate::common::{group_without_seed, refusal};
use model::{build, check, image_of, lookup, place_group, Found};
use random::Random;

#[test]
fn a_group_may_hold_0_1_and_32_tags_and_not_33() {
    for count in [0, 1, 2, 24, 25, 31, 32] {
        let tags: Vec<u32> = (1..=count).collect();
        assert!(place_group(&tags, 65_536).is_ok(), "{count}");
        let image = image_of(&tags, 1, 65_536).unwrap();
        assert_eq!(image.len(), 11 * (2 + tags.len()));
        assert_eq!(check(&image), Ok(()));
    }
    let tags: Vec<u32> = (1..=33).collect();
    assert_eq!(place_group(&tags, 65_536), Err(refusal(5, 0)));
    assert_eq!(image_of(&tags, 1, 65_536), Err(refusal(10, 0)));
}

#[test]
fn a_list_may_hold_4096_tags_and_not_4097() {
    let tags = Random::new(6).tags(4_096);
    let image = image_of(&tags, 512, 65_536).unwrap();
    // "at most 50,699 bytes"
    assert_eq!(image.len(), 50_699);
    assert_eq!(check(&image), Ok(()));
    let mut numbers: Vec<u32> = tags
        .iter()
        .map(|&tag| match lookup(&image, tag) {
            Ok(Found::Number(number)) => number,
            other => panic!("{tag}: {other:?}"),
        })
        .collect();
    numbers.sort_unstable();
    assert_eq!(numbers, (0..4_096).collect::<Vec<u32>>());

    let tags = Random::new(6).tags(4_097);
    assert_eq!(image_of(&tags, 512, 65_536), Err(refusal(5, 0)));
}

#[test]
fn group_counts_1_and_512_are_legal_and_0_and_513_are_not() {
    let tags = [1, 4_294_967_295];
    for groups in [1, 2, 511, 512] {
        let image = image_of(&tags, groups, 9).unwrap();
        assert_eq!(image.len(), 11 * (1 + groups as usize + 2));
        assert_eq!(check(&image), Ok(()));
    }
    for groups in [0, 513] {
        assert_eq!(image_of(&tags, groups, 9), Err(refusal(8, 0)));
    }
}

#[test]
fn empty_groups_start_where_the_next_one_does_and_have_seed_0() {
    assert_eq!(
        image_of(&[], 3, 1).unwrap(),
        b"    0    3\n    0    0\n    0    0\n    0    0\n"
    );
    // Tag 2 falls in group 0, and the groups behind it start at 1.
    assert_eq!(
        image_of(&[2], 3, 1).unwrap(),
        b"    1    3\n    0    0\n    1    0\n    1    0\n         2\n"
    );
}

#[test]
fn a_buffer_that_is_exact_or_longer_gets_the_image_and_no_other_byte() {
    let mut random = Random::new(7);
    for (groups, count) in [(1, 0), (1, 9), (2, 3), (7, 60), (512, 1_000)] {
        let tags = random.tags(count);
        let image = image_of(&tags, groups, 65_536).unwrap();
        for more in [0, 1, 11, 500] {
            let mut buffer = vec![0xA5; image.len() + more];
            assert_eq!(build(&tags, groups, 65_536, &mut buffer), Ok(image.len()));
            assert_eq!(buffer[..image.len()], image);
            assert!(buffer[image.len()..].iter().all(|&byte| byte == 0xA5));
        }
    }
}

#[test]
fn a_buffer_that_is_one_byte_short_is_refused_and_kept() {
    let mut random = Random::new(8);
    for (groups, count) in [(1, 0), (1, 9), (2, 3), (7, 60), (512, 1_000)] {
        let tags = random.tags(count);
        let length = 11 * (1 + groups as usize + count);
        for short in [length - 1, length - 11, 0] {
            let mut buffer = vec![0xA5; short];
            assert_eq!(
                build(&tags, groups, 65_536, &mut buffer),
                Err(refusal(9, 0))
            );
            assert!(buffer.iter().all(|&byte| byte == 0xA5));
        }
    }
}

#[test]
fn every_refusal_of_building_leaves_the_buffer_as_it_was() {
    let ascending: Vec<u32> = (1..=33).collect();
    let too_many: Vec<u32> = (1..=4_097).collect();
    let cases: [(&[u32], u32, u32, u32); 7] = [
        (&[1], 0, 1, 8),
        (&[1], 1, 0, 4),
        (&too_many, 1, 1, 5),
        (&[5, 5], 1, 1, 6),
        (&[0, 5], 1, 1, 17),
        (&ascending, 1, 1, 10),
        (&group_without_seed(), 1, 65_536, 7),
    ];
    for (tags, groups, limit, number) in cases {
        let mut buffer = vec![0xA5; 60_000];
        let answer = build(tags, groups, limit, &mut buffer);
        assert_eq!(answer.unwrap_err().number, number);
        assert!(buffer.iter().all(|&byte| byte == 0xA5));
    }
}
