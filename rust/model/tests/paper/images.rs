//! Checking and lookup: built images, damaged images, and what lookup does not read.

use crate::common::{refusal, with_line, WHOLE_CASE_IMAGE};
use crate::lists::{DAMAGED_PAIR_LINES, DAMAGED_TAG_LINES};
use model::hash::{group_of, place_of};
use model::{check, image_of, lookup, Found};
use random::Random;

/// An image of lines, each without its line feed.
fn image(lines: &[&str]) -> Vec<u8> {
    lines
        .iter()
        .flat_map(|line| format!("{line}\n").into_bytes())
        .collect()
}

#[test]
fn built_images_are_accepted_and_give_each_tag_its_slot() {
    let mut random = Random::new(9);
    for (groups, count) in [(1, 0), (1, 1), (1, 16), (2, 20), (40, 300), (512, 4_000)] {
        let tags = random.tags(count);
        let image = image_of(&tags, groups, 65_536).unwrap();
        assert_eq!(check(&image), Ok(()));
        for (slot, line) in image[11 * (1 + groups as usize)..].chunks(11).enumerate() {
            let tag = String::from_utf8_lossy(line).trim().parse().unwrap();
            assert!(tags.contains(&tag));
            assert_eq!(lookup(&image, tag), Ok(Found::Number(slot as u32)));
        }
        for _ in 0..200 {
            let tag = random.tag();
            if !tags.contains(&tag) {
                assert_eq!(lookup(&image, tag), Ok(Found::Unknown));
            }
        }
    }
}

#[test]
fn an_unlisted_tag_is_unknown_in_empty_and_in_filled_groups() {
    let empty = image_of(&[], 512, 1).unwrap();
    let filled = image_of(&[1, 2, 3], 2, 9).unwrap();
    for tag in [0, 4, 5, 6, 100, 2_147_483_648, u32::MAX] {
        assert_eq!(lookup(&empty, tag), Ok(Found::Unknown));
        assert_eq!(lookup(&filled, tag), Ok(Found::Unknown));
    }
}

#[test]
fn an_image_of_fewer_than_11_bytes_is_refused_with_11() {
    for length in 0..11 {
        assert_eq!(check(&WHOLE_CASE_IMAGE[..length]), Err(refusal(11, 0)));
        assert_eq!(lookup(&WHOLE_CASE_IMAGE[..length], 1), Err(refusal(11, 0)));
    }
}

#[test]
fn a_malformed_line_0_is_refused_with_12_before_the_length() {
    let lines_out_of_bounds: [(&str, &[u8; 11]); 4] = [
        ("N is 4,097", b" 4097    1\n"),
        ("B is 0", b"    3    0\n"),
        ("B is 513", b"    3  513\n"),
        ("both 99,999", b"9999999999\n"),
    ];
    for (fault, line) in lines_out_of_bounds.into_iter().chain(DAMAGED_PAIR_LINES) {
        let damaged = with_line(WHOLE_CASE_IMAGE, 0, line);
        for bytes in [&damaged[..], &damaged[..11], &damaged[..50]] {
            assert_eq!(check(bytes), Err(refusal(12, 0)), "{fault}");
            assert_eq!(lookup(bytes, 1), Err(refusal(12, 0)), "{fault}");
        }
    }
}

#[test]
fn a_length_that_line_0_does_not_give_is_refused_with_11() {
    for length in 11..66 {
        assert_eq!(check(&WHOLE_CASE_IMAGE[..length]), Err(refusal(11, 0)));
        assert_eq!(lookup(&WHOLE_CASE_IMAGE[..length], 1), Err(refusal(11, 0)));
    }
    let longer = [WHOLE_CASE_IMAGE, b"\n"].concat();
    assert_eq!(check(&longer), Err(refusal(11, 0)));
    assert_eq!(lookup(&longer, 1), Err(refusal(11, 0)));
    // Before the malformed lines.
    let damaged = with_line(WHOLE_CASE_IMAGE, 1, b"          \n");
    assert_eq!(check(&damaged[..65]), Err(refusal(11, 0)));
    assert_eq!(lookup(&damaged[..65], 2), Err(refusal(11, 0)));
}

#[test]
fn each_damage_of_a_line_is_refused_with_12_at_the_first_such_line() {
    for index in 1..6 {
        let faults: Vec<(&str, &[u8; 11])> = if index < 3 {
            let seed_too_large: (&str, &[u8; 11]) = ("seed 65,536", b"    065536\n");
            DAMAGED_PAIR_LINES
                .into_iter()
                .chain([seed_too_large])
                .collect()
        } else {
            DAMAGED_TAG_LINES.to_vec()
        };
        for (fault, line) in faults {
            let mut damaged = with_line(WHOLE_CASE_IMAGE, index, line);
            assert_eq!(check(&damaged), Err(refusal(12, index as u64)), "{fault}");
            damaged[11 * 5 + 10] = 0;
            assert_eq!(check(&damaged), Err(refusal(12, index as u64)), "{fault}");
        }
    }
}

#[test]
fn a_start_is_bounded_by_its_columns_and_a_seed_by_65535() {
    let at_bounds = with_line(WHOLE_CASE_IMAGE, 2, b"9999965535\n");
    assert_eq!(check(&at_bounds), Err(refusal(13, 0)));
    let above = with_line(WHOLE_CASE_IMAGE, 2, b"9999965536\n");
    assert_eq!(check(&above), Err(refusal(12, 2)));
}

#[test]
fn checking_names_the_lowest_faulty_group_with_13() {
    let slots = ["         2", "         1", "         3"];
    let with_starts = |starts: &[&str]| image(&[starts, &slots].concat());
    // Group 0 does not start at 0.
    let first = with_starts(&["    3    2", "    1    0", "    1    1"]);
    assert_eq!(check(&first), Err(refusal(13, 0)));
    // The next start is lower than its own.
    let lower = with_starts(&["    3    3", "    0    0", "    2    1", "    1    0"]);
    assert_eq!(check(&lower), Err(refusal(13, 1)));
    // N is lower than the last start.
    let last = with_starts(&["    3    2", "    0    0", "    4    1"]);
    assert_eq!(check(&last), Err(refusal(13, 1)));
    // The next start is more than 32 above, and so would be that of the group after it.
    let above = with_starts(&["    3    3", "    0    0", "   33    1", "   66    0"]);
    assert_eq!(check(&above), Err(refusal(13, 0)));
    // 32 above is legal; then the last group starts above N.
    let at_32 = with_starts(&["    3    2", "    0    0", "   32    1"]);
    assert_eq!(check(&at_32), Err(refusal(13, 1)));
}

#[test]
fn a_last_group_of_more_than_32_is_faulty() {
    let mut lines = vec!["   33    1", "    0    0"];
    lines.extend(["         7"; 33]);
    assert_eq!(check(&image(&lines)), Err(refusal(13, 0)));
    assert_eq!(lookup(&image(&lines), 7), Err(refusal(13, 0)));
    // With 32, checking and lookup go on to the slots.
    let mut lines = vec!["   32    1", "    0    0"];
    lines.extend(["         7"; 32]);
    assert_eq!(check(&image(&lines)).unwrap_err().number, 14);
    assert!(matches!(lookup(&image(&lines), 7), Ok(Found::Number(_))));
    assert_eq!(lookup(&image(&lines), 8), Ok(Found::Unknown));
}

#[test]
fn checking_comes_to_12_before_13_before_14_before_15() {
    // Slot 0 holds a tag of the other group, slot 2 repeats slot 1 at a place of its own.
    let all = image(&[
        "    3    2",
        "    1    0",
        "    1    1",
        "         1",
        "         3",
        "         x",
    ]);
    assert_eq!(check(&all), Err(refusal(12, 5)));
    let all = with_line(&all, 5, b"         3\n");
    assert_eq!(check(&all), Err(refusal(13, 0)));
    let all = with_line(&all, 1, b"    0    0\n");
    assert_eq!(check(&all), Err(refusal(14, 0)));
    let all = with_line(&all, 3, b"         2\n");
    assert_eq!(check(&all), Err(refusal(15, 2)));
    let all = with_line(&all, 4, b"         1\n");
    assert_eq!(check(&all), Ok(()));
}

#[test]
fn a_tag_of_another_group_is_refused_with_14_at_its_slot() {
    assert_eq!(group_of(4, 2), 0);
    for slot in 1..3 {
        let damaged = with_line(WHOLE_CASE_IMAGE, 3 + slot, b"         4\n");
        assert_eq!(check(&damaged), Err(refusal(14, slot as u64)));
    }
}

#[test]
fn a_tag_with_neither_place_there_is_refused_with_14_at_its_slot() {
    // Under seed 1 tag 1 has places 0 and 0, so it may not stand in place 1.
    let swapped = with_line(WHOLE_CASE_IMAGE, 4, b"         3\n");
    let swapped = with_line(&swapped, 5, b"         1\n");
    assert_eq!(check(&swapped), Err(refusal(14, 2)));
    // Another seed in the group line, under which both have places 1 and 1.
    let other_seed = with_line(WHOLE_CASE_IMAGE, 2, b"    1    0\n");
    assert_eq!(check(&other_seed), Err(refusal(14, 1)));
}

#[test]
fn a_tag_that_stands_in_a_lower_slot_of_its_group_is_refused_with_15() {
    // Tag 599 has the places 0 and 1 under seed 0 in a group of 2.
    let twice = image(&["    2    1", "    0    0", "       599", "       599"]);
    assert_eq!(check(&twice), Err(refusal(15, 1)));
    let tags = [599, 1193];
    assert!(check(&image_of(&tags, 1, 1).unwrap()).is_ok());
}

#[test]
fn checking_does_not_examine_least_seeds_or_sequences() {
    // The other filling sequence of {599, 1193} under seed 0.
    let not_least = image(&["    2    1", "    0    0", "      1193", "       599"]);
    assert_eq!(check(&not_least), Ok(()));
    assert_eq!(lookup(&not_least, 599), Ok(Found::Number(1)));
    // An empty group with a seed that building never writes.
    let seed_of_empty = image(&["    0    1", "    065535"]);
    assert_eq!(check(&seed_of_empty), Ok(()));
}

#[test]
fn lookup_refuses_with_12_at_its_group_line_and_then_at_the_next() {
    let image = image_of(&[], 3, 1).unwrap();
    let both = with_line(&image, 1, b"          \n");
    let both = with_line(&both, 2, b"          \n");
    assert_eq!(group_of(2, 3), 0);
    assert_eq!(lookup(&both, 2), Err(refusal(12, 1)));
    let next = with_line(&image, 2, b"    065536\n");
    assert_eq!(lookup(&next, 2), Err(refusal(12, 2)));
    // The last group has no next line.
    let last = (1..).find(|&tag| group_of(tag, 3) == 2).unwrap();
    assert_eq!(lookup(&both, last), Ok(Found::Unknown));
    let own = with_line(&image, 3, b"          \n");
    assert_eq!(lookup(&own, last), Err(refusal(12, 3)));
}

#[test]
fn lookup_refuses_with_13_at_its_group() {
    let with_starts = |first, second| {
        let slots = ["         2", "         1", "         3"];
        image(&[&["    3    2", first, second][..], &slots].concat())
    };
    // Tag 2 is of group 0, tags 1 and 3 of group 1.
    assert_eq!(
        lookup(&with_starts("    1    0", "    1    1"), 2),
        Err(refusal(13, 0))
    );
    assert_eq!(
        lookup(&with_starts("    2    0", "    1    1"), 2),
        Err(refusal(13, 0))
    );
    assert_eq!(
        lookup(&with_starts("    0    0", "   33    1"), 2),
        Err(refusal(13, 0))
    );
    assert_eq!(
        lookup(&with_starts("    0    0", "    4    1"), 1),
        Err(refusal(13, 1))
    );
    // "or its end exceeds N": checking finds that fault at the group after it.
    let end_above = with_starts("    0    0", "    4    1");
    assert_eq!(lookup(&end_above, 2), Err(refusal(13, 0)));
    assert_eq!(check(&end_above), Err(refusal(13, 1)));
    // The fault of a lower group is none of this lookup's.
    let other_fault = with_starts("    1    0", "    1    1");
    assert_eq!(lookup(&other_fault, 1), Ok(Found::Number(1)));
}

#[test]
fn lookup_tests_the_start_for_0_in_group_0_only_and_before_the_size() {
    // Group 0 is empty and starts at 1: faulty, not unknown.
    let image = image(&["    1    2", "    1    0", "    1    0", "         2"]);
    assert_eq!(lookup(&image, 2), Err(refusal(13, 0)));
    // Group 1 is empty and starts at 1: unknown.
    assert_eq!(lookup(&image, 1), Ok(Found::Unknown));
}

#[test]
fn lookup_refuses_with_12_at_the_line_of_a_slot_it_reads() {
    // Tag 3 under seed 1: choice 0 is slot 1, line 4; choice 1 is slot 2, line 5.
    let first = with_line(WHOLE_CASE_IMAGE, 4, b"          \n");
    assert_eq!(lookup(&first, 3), Err(refusal(12, 4)));
    let second = with_line(WHOLE_CASE_IMAGE, 5, b"4294967296\n");
    assert_eq!(lookup(&second, 3), Err(refusal(12, 5)));
    // Both malformed: choice 0 decides.
    let both = with_line(&first, 5, b"          \n");
    assert_eq!(lookup(&both, 3), Err(refusal(12, 4)));
    // Found at choice 0: the slot of choice 1 is not examined.
    let found = with_line(&second, 4, b"         3\n");
    assert_eq!(lookup(&found, 3), Ok(Found::Number(1)));
}

#[test]
fn lookup_depends_on_no_other_byte() {
    let mut random = Random::new(10);
    let tags = random.tags(120);
    let image = image_of(&tags, 16, 65_536).unwrap();
    let starts: Vec<usize> = (0..16)
        .map(|group| {
            tags.iter()
                .filter(|&&tag| (group_of(tag, 16) as usize) < group)
                .count()
        })
        .chain([tags.len()])
        .collect();
    for round in 0..200 {
        let tag = if round % 2 == 0 {
            tags[random.below(120)]
        } else {
            random.tag()
        };
        let group = group_of(tag, 16) as usize;
        let size = starts[group + 1] - starts[group];
        let seed_field = String::from_utf8_lossy(&image[11 * (1 + group) + 5..][..5]).into_owned();
        let seed = seed_field.trim().parse().unwrap();
        let mut read = vec![0, 1 + group];
        if group + 1 < 16 {
            read.push(2 + group);
        }
        if size > 0 {
            read.extend((0..2).map(|choice| {
                17 + starts[group] + place_of(size as u32, seed, choice, tag) as usize
            }));
        }
        let mut noise = image.clone();
        for (index, byte) in noise.iter_mut().enumerate() {
            if !read.contains(&(index / 11)) {
                *byte = random.next_u64() as u8;
            }
        }
        assert_eq!(lookup(&noise, tag), lookup(&image, tag));
        assert!(check(&noise).is_err());
    }
}

#[test]
fn in_an_accepted_image_every_slot_is_found_and_no_lookup_refuses() {
    // Random changes of one byte: where checking still accepts, lookup agrees with the slots.
    let mut random = Random::new(11);
    let tags = random.tags(30);
    let image = image_of(&tags, 6, 65_536).unwrap();
    let mut accepted = 0;
    for _ in 0..4_000 {
        let mut changed = image.clone();
        let at = random.below(changed.len());
        changed[at] = b" 0123456789\n"[random.below(12)];
        if check(&changed).is_err() {
            continue;
        }
        accepted += 1;
        for (slot, line) in changed[77..].chunks(11).enumerate() {
            let tag = String::from_utf8_lossy(line).trim().parse().unwrap();
            assert_eq!(lookup(&changed, tag), Ok(Found::Number(slot as u32)));
        }
        assert!(lookup(&changed, random.tag()).is_ok());
    }
    assert!(accepted > 100, "{accepted}");
}
