//! Document 02, §5: images without tags, built, checked and looked up in; each refusal and its order.

use crate::common::{
    refusal, tags_of_group, tags_of_groups, WHOLE_CASE_IMAGE, WHOLE_CASE_TEXT, WITHOUT_PLACE_2,
};
use model::hash::{group_of, place_of};
use model::tagless::image::GroupLine;
use model::tagless::{
    build, check, choice_of, first_seed_and_word, image_of, lookup, tagless_length,
};
use model::{
    answer_tagless_build, answer_tagless_check, answer_tagless_lookup, list_text, place_group,
    Found,
};
use random::Random;

/// The whole case of document 01 as an image without tags, 53 bytes.
const WHOLE_CASE: &[u8] = b"    3    2\n    0    0         0\n    1    1         1\n";

/// A copy of an image with one group line replaced by another of 21 bytes.
fn with_group_line(image: &[u8], group: usize, line: &[u8]) -> Vec<u8> {
    assert_eq!(line.len(), 21);
    let mut changed = image.to_vec();
    changed[tagless_length(group)..tagless_length(group + 1)].copy_from_slice(line);
    changed
}

/// The image of these starts, with seed 0 and word 0 in each group.
fn of_starts(tags: usize, starts: &[usize]) -> Vec<u8> {
    let mut image = model::line::line_of_two(tags as u64, starts.len() as u64);
    for &start in starts {
        let (seed, word) = (0, 0);
        image.extend(GroupLine { start, seed, word }.bytes());
    }
    image
}

#[test]
fn the_whole_case_is_built_checked_and_looked_up() {
    let mut buffer = [0xA5; 60];
    assert_eq!(build(&[1, 2, 3], 2, 9, &mut buffer), Ok(53));
    assert_eq!(buffer[..53], *WHOLE_CASE);
    assert_eq!(buffer[53..], [0xA5; 7]);
    assert_eq!(image_of(&[1, 2, 3], 2, 9).as_deref(), Ok(WHOLE_CASE));
    assert_eq!(check(WHOLE_CASE), Ok(()));
    let numbers = [2, 1, 3].map(|tag| lookup(WHOLE_CASE, tag));
    assert_eq!(numbers, [0, 1, 2].map(|number| Ok(Found::Number(number))));
    assert_eq!(lookup(WHOLE_CASE, 0), Ok(Found::Unknown));
    // A stranger gets a number below N too.
    for tag in (4..1_000).chain([1 << 31, u32::MAX]) {
        let Ok(Found::Number(number)) = lookup(WHOLE_CASE, tag) else {
            panic!("{tag} is in a group that is not empty");
        };
        assert!(number < 3);
    }
}

#[test]
fn the_length_is_11_and_21_for_each_group_whatever_the_number_of_tags() {
    assert_eq!(tagless_length(1), 32);
    assert_eq!(tagless_length(512), 10_763);
    assert_eq!(
        image_of(&[], 1, 1).as_deref(),
        Ok(&b"    0    1\n    0    0         0\n"[..])
    );
    let image = image_of(&[], 512, 1).unwrap();
    assert_eq!(image.len(), 10_763);
    assert_eq!(check(&image), Ok(()));
    let tags: Vec<u32> = (1..=4_096).collect();
    let image = image_of(&tags, 512, 65_536).unwrap();
    assert_eq!(image.len(), 10_763);
    assert_eq!(image[..11], *b" 4096  512\n");
}

#[test]
fn listed_tags_get_the_numbers_below_n_each_once_and_strangers_one_of_them() {
    let mut random = Random::new(61);
    for (groups, count) in [(1, 1), (1, 20), (3, 40), (64, 300), (512, 4_096)] {
        let tags = match count {
            4_096 => (7..7 + 4_096).collect(),
            _ => random.tags(count),
        };
        let image = image_of(&tags, groups, 65_536).unwrap();
        assert_eq!(check(&image), Ok(()));
        let mut met = vec![false; count];
        for &tag in &tags {
            let Ok(Found::Number(number)) = lookup(&image, tag) else {
                panic!("{tag} is listed");
            };
            assert!(!met[number as usize]);
            met[number as usize] = true;
        }
        for _ in 0..999 {
            let tag = random.tag();
            match lookup(&image, tag).unwrap() {
                Found::Number(number) => assert!((number as usize) < count),
                Found::Unknown => {
                    let own = group_of(tag, groups);
                    assert!(tags.iter().all(|&listed| group_of(listed, groups) != own));
                }
            }
        }
    }
}

#[test]
fn a_group_line_has_the_start_the_least_seed_and_its_least_word() {
    let tags = Random::new(62).tags(90);
    let image = image_of(&tags, 9, 65_536).unwrap();
    let mut start = 0;
    for group in 0..9 {
        let part: Vec<u32> = tags
            .iter()
            .copied()
            .filter(|&tag| group_of(tag, 9) as usize == group)
            .collect();
        let (seed, word) = first_seed_and_word(&part, 65_536).unwrap();
        let line = GroupLine { start, seed, word };
        let bytes = &image[tagless_length(group)..tagless_length(group + 1)];
        assert_eq!(line.bytes(), bytes);
        assert_eq!(GroupLine::read(bytes), Some(line));
        for &tag in &part {
            let place = place_of(part.len() as u32, seed, choice_of(seed, word, tag), tag);
            let number = Found::Number(start as u32 + place);
            assert_eq!(lookup(&image, tag), Ok(number));
        }
        start += part.len();
    }
}

#[test]
fn building_refuses_with_8_then_4_then_5_then_6_then_17_then_9_then_10_then_7() {
    let equal = vec![5; 4_097];
    let zeros = vec![0; 4_096];
    let from_0: Vec<u32> = (0..4_096).collect();
    for groups in [0, 513, u32::MAX] {
        assert_eq!(build(&equal, groups, 0, &mut []), Err(refusal(8, 0)));
    }
    for limit in [0, 65_537, u32::MAX] {
        assert_eq!(build(&equal, 512, limit, &mut []), Err(refusal(4, 0)));
    }
    assert_eq!(build(&equal, 1, 1, &mut []), Err(refusal(5, 0)));
    assert_eq!(build(&zeros, 1, 1, &mut []), Err(refusal(6, 1)));
    assert_eq!(build(&from_0, 1, 1, &mut []), Err(refusal(17, 0)));
    // Groups 2 and 3 have 33 tags, group 1 has no seed below 1, group 0 has one.
    let tags = tags_of_groups(&[(0, 1), (1, 20), (2, 33), (3, 33)], 4);
    let mut short = vec![0xA5; 94];
    assert_eq!(build(&tags, 4, 1, &mut short), Err(refusal(9, 0)));
    let mut enough = vec![0xA5; 95];
    assert_eq!(build(&tags, 4, 1, &mut enough), Err(refusal(10, 2)));
    let tags = tags_of_groups(&[(0, 1), (1, 20), (2, 32), (3, 32)], 4);
    assert_eq!(build(&tags, 4, 1, &mut short), Err(refusal(9, 0)));
    assert_eq!(build(&tags, 4, 1, &mut enough), Err(refusal(7, 1)));
    assert!(short.iter().chain(&enough).all(|&byte| byte == 0xA5));
    assert_eq!(image_of(&WITHOUT_PLACE_2, 1, 65_536), Err(refusal(7, 0)));
}

#[test]
fn seven_may_come_where_placing_finds_a_seed() {
    // Under seed 0 two sequences fill the group of 19, 24 and 43, and no word makes one of them.
    let tags = [19, 24, 43];
    assert_eq!(place_group(&tags, 1).map(|(seed, _)| seed), Ok(0));
    assert_eq!(image_of(&tags, 1, 1), Err(refusal(7, 0)));
    assert_eq!(image_of(&tags, 1, 2), Err(refusal(7, 0)));
    assert_eq!(
        image_of(&tags, 1, 3).as_deref(),
        Ok(&b"    3    1\n    0    2         0\n"[..])
    );
    // No seed at all has a word for two, four, five and seven times 2^29; seed 1 serves them.
    let tags = [2, 4, 5, 7].map(|multiple| multiple << 29);
    assert_eq!(place_group(&tags, 65_536).map(|(seed, _)| seed), Ok(1));
    assert_eq!(image_of(&tags, 1, 65_536), Err(refusal(7, 0)));
}

#[test]
fn groups_of_0_1_2_31_and_32_tags_are_built_and_33_are_refused() {
    for (group, groups) in [(0, 1), (1, 2), (0, 3), (511, 512)] {
        for size in [0, 1, 2, 31, 32] {
            let tags = tags_of_group(group, groups, size);
            let image = image_of(&tags, groups, 65_536).unwrap();
            assert_eq!(check(&image), Ok(()));
            let mut numbers: Vec<_> = tags.iter().map(|&tag| lookup(&image, tag)).collect();
            numbers.sort_unstable_by_key(|found| match found {
                Ok(Found::Number(number)) => *number,
                _ => u32::MAX,
            });
            let all = (0..size as u32).map(|number| Ok(Found::Number(number)));
            assert!(numbers.into_iter().eq(all));
        }
        let tags = tags_of_group(group, groups, 33);
        let refused = image_of(&tags, groups, 65_536);
        assert_eq!(refused, Err(refusal(10, u64::from(group))));
    }
}

#[test]
fn a_buffer_of_just_the_length_is_filled_and_one_byte_less_refused() {
    for (groups, tags) in [(1, &[][..]), (2, &[1, 2, 3]), (512, &[9])] {
        let image = image_of(tags, groups, 9).unwrap();
        let length = tagless_length(groups as usize);
        assert_eq!(image.len(), length);
        for room in [0, 1, 10, 11, length - 21, length - 1] {
            let mut buffer = vec![0xA5; room];
            assert_eq!(build(tags, groups, 9, &mut buffer), Err(refusal(9, 0)));
            assert!(buffer.iter().all(|&byte| byte == 0xA5));
        }
        for more in [0, 1, 11, 21] {
            let mut buffer = vec![0xA5; length + more];
            assert_eq!(build(tags, groups, 9, &mut buffer), Ok(length));
            assert_eq!(buffer[..length], image);
            assert!(buffer[length..].iter().all(|&byte| byte == 0xA5));
        }
    }
}

#[test]
fn checking_and_lookup_refuse_with_11_then_12_at_0_then_11() {
    for length in 0..11 {
        assert_eq!(check(&WHOLE_CASE[..length]), Err(refusal(11, 0)));
        assert_eq!(lookup(&WHOLE_CASE[..length], 0), Err(refusal(11, 0)));
    }
    for line in [
        &b"    3    0\n"[..],
        b"    3  513\n",
        b" 4097    2\n",
        b"    3   02\n",
        b"    3    2\r",
        b"         2\n",
    ] {
        // The length is wrong too, or it is not.
        for image in [&[line, b" "].concat(), &[line, &WHOLE_CASE[11..]].concat()] {
            assert_eq!(check(image), Err(refusal(12, 0)));
            assert_eq!(lookup(image, 0), Err(refusal(12, 0)));
            assert_eq!(lookup(image, 1), Err(refusal(12, 0)));
        }
    }
    // The length is that of B, and of no N: a malformed group line does not matter then.
    let malformed = with_group_line(WHOLE_CASE, 1, b"                    x");
    for image in [
        &malformed[..52],
        &malformed[..32],
        &[&malformed[..], b"\n"].concat(),
        WHOLE_CASE_IMAGE,
    ] {
        assert_eq!(check(image), Err(refusal(11, 0)));
        assert_eq!(lookup(image, 0), Err(refusal(11, 0)));
        assert_eq!(lookup(image, 1), Err(refusal(11, 0)));
    }
    for count in [0, 1, 3, 64] {
        let mut image = of_starts(count, &[0, 32.min(count)]);
        assert_eq!(image.len(), 53);
        assert_eq!(check(&image), Ok(()));
        image.push(b' ');
        assert_eq!(check(&image), Err(refusal(11, 0)));
    }
}

#[test]
fn a_group_line_is_malformed_if_one_of_its_fields_is() {
    assert_eq!([1, 2].map(|tag| group_of(tag, 2)), [1, 0]);
    for line in [
        &b"    1    14294967296\n"[..],
        b"    1    19999999999\n",
        b"    165536         1\n",
        b"    1    1          \n",
        b"    1    1        01\n",
        b"    1    10000000001\n",
        b"    1    1        1 \n",
        b"    1    1         1\r",
        b"    1    1         1 ",
        b"   01    1         1\n",
        b"    1   01         1\n",
        b"         1         1\n",
        b"    1              1\n",
        b"    1    1        -1\n",
    ] {
        assert_eq!(GroupLine::read(line), None);
        for group in 0..2 {
            let image = with_group_line(WHOLE_CASE, group, line);
            let refused = refusal(12, 1 + group as u64);
            assert_eq!(check(&image), Err(refused));
            // Group 0 needs the line of group 1 too, and group 1 not that of group 0.
            for tag in 1..100 {
                let reads = group == 1 || group_of(tag, 2) == 0;
                assert_eq!(lookup(&image, tag) == Err(refused), reads, "{tag}");
            }
            assert_eq!(lookup(&image, 0), Ok(Found::Unknown));
        }
        // Of two the first is named.
        let both = with_group_line(&with_group_line(WHOLE_CASE, 0, line), 1, line);
        assert_eq!(check(&both), Err(refusal(12, 1)));
        assert_eq!(lookup(&both, 1), Err(refusal(12, 2)));
        assert_eq!(lookup(&both, 2), Err(refusal(12, 1)));
    }
    // The greatest seed and the greatest word are in order.
    let image = with_group_line(WHOLE_CASE, 1, b"    1655354294967295\n");
    assert_eq!(check(&image), Ok(()));
    assert!(lookup(&image, 1).is_ok());
}

#[test]
fn a_group_is_faulty_by_its_start_and_the_next() {
    for (count, starts, group) in [
        (3, &[1, 1][..], 0),
        (3, &[0, 4], 1),
        (3, &[0, 99_999], 0),
        (33, &[0, 0], 1),
        (33, &[0, 33], 0),
        (33, &[0], 0),
        (9, &[0, 5, 4], 1),
        (64, &[0, 32, 31], 1),
        (64, &[0, 31], 1),
    ] {
        let image = of_starts(count, starts);
        let refused = refusal(13, group);
        assert_eq!(check(&image), Err(refused), "{count} {starts:?}");
    }
    for (count, starts) in [
        (0, &[0, 0][..]),
        (32, &[0, 32]),
        (32, &[0, 0]),
        (64, &[0, 32]),
        (1, &[0, 0, 1, 1]),
    ] {
        assert_eq!(check(&of_starts(count, starts)), Ok(()));
    }
    // A malformed line comes first, wherever it is.
    let image = with_group_line(&of_starts(3, &[1, 4]), 1, b"    4    04294967296\n");
    assert_eq!(check(&image), Err(refusal(12, 2)));
}

#[test]
fn lookup_refuses_an_end_beyond_n_and_answers_below_n_otherwise() {
    // Tag 2 is in group 0 of two, whose end is the start of group 1; tag 1 is in group 1.
    for end in [4, 5, 31, 32] {
        let image = of_starts(3, &[0, end]);
        assert_eq!(lookup(&image, 2), Err(refusal(13, 0)));
        assert_eq!(lookup(&image, 1), Err(refusal(13, 1)));
    }
    let image = of_starts(3, &[0, 3]);
    assert!(matches!(lookup(&image, 2), Ok(Found::Number(0..=2))));
    assert_eq!(lookup(&image, 1), Ok(Found::Unknown));
    let image = of_starts(3, &[0, 0]);
    assert_eq!(lookup(&image, 2), Ok(Found::Unknown));
    assert!(matches!(lookup(&image, 1), Ok(Found::Number(0..=2))));
    // Group 0 must start at 0; group 1 need not.
    let image = of_starts(3, &[1, 2]);
    assert_eq!(lookup(&image, 2), Err(refusal(13, 0)));
    assert_eq!(lookup(&image, 1), Ok(Found::Number(2)));
    // A fault in a group that the tag does not meet.
    let image = of_starts(3, &[0, 3, 99]);
    let tag = tags_of_group(0, 3, 1)[0];
    assert!(lookup(&image, tag).is_ok());
    assert_eq!(check(&image), Err(refusal(13, 1)));
}

#[test]
fn neither_seeds_nor_words_are_examined_by_checking() {
    for line in [
        &b"    1    2         1\n"[..],
        b"    165535         1\n",
        b"    1    1         0\n",
        b"    1    14294967295\n",
    ] {
        let image = with_group_line(WHOLE_CASE, 1, line);
        assert_eq!(check(&image), Ok(()));
        for tag in 1..99 {
            assert!(matches!(lookup(&image, tag), Ok(Found::Number(0..=2))));
        }
    }
    // Nor is the seed of an empty group.
    assert_eq!(check(b"    0    1\n    0    7         9\n"), Ok(()));
}

#[test]
fn the_calls_answer_numbers_unknown_and_refusals() {
    let refused = |number: u64, place: u64| number * 4_294_967_296 + place;
    let mut buffer = [0xA5; 60];
    let text = WHOLE_CASE_TEXT;
    assert_eq!(answer_tagless_build(text, &mut buffer[..52]), refused(9, 0));
    assert_eq!(answer_tagless_build(&text[..43], &mut []), refused(16, 0));
    let malformed = [&text[..33], b"         x\n"].concat();
    assert_eq!(answer_tagless_build(&malformed, &mut []), refused(16, 3));
    assert_eq!(
        answer_tagless_build(&vec![0; 65_528], &mut []),
        refused(5, 0)
    );
    assert_eq!(
        answer_tagless_build(&list_text(0, 0, &[5, 5]), &mut []),
        refused(8, 0)
    );
    assert_eq!(
        answer_tagless_build(&list_text(1, 1, &vec![1; 4_097]), &mut []),
        refused(5, 0)
    );
    assert_eq!(
        answer_tagless_build(&list_text(1, 1, &[1, 3]), &mut buffer),
        refused(7, 0)
    );
    assert_eq!(buffer, [0xA5; 60]);
    assert_eq!(answer_tagless_build(text, &mut buffer), 53);
    assert_eq!(buffer[..53], *WHOLE_CASE);

    assert_eq!(answer_tagless_check(WHOLE_CASE), 0);
    assert_eq!(answer_tagless_check(b""), refused(11, 0));
    let faulty = of_starts(3, &[0, 3, 2]);
    assert_eq!(answer_tagless_check(&faulty), refused(13, 1));
    assert_eq!(
        [2, 1, 3].map(|tag| answer_tagless_lookup(WHOLE_CASE, tag)),
        [0, 1, 2]
    );
    assert_eq!(answer_tagless_lookup(WHOLE_CASE, 0), 4_294_967_295);
    let malformed = with_group_line(WHOLE_CASE, 1, b"    1    14294967296\n");
    assert_eq!(answer_tagless_lookup(&malformed, 1), refused(12, 2));
}
