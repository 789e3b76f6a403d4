//! Document 02, §7: "Proof that an image is ours." Which images the strict check accepts, which group it
//! names with 19, and what comes before.

use crate::common::{
    all_different, in_order, places, refusal, tags_of_group, tags_of_groups, with_line,
    WHOLE_CASE_IMAGE,
};
use model::hash::{group_of, place_of};
use model::line::{line_of_tag, line_of_two};
use model::placing::serves;
use model::{answer_strict_check, check, image_of, lookup, strict_check, Found};
use model::{plan_list, write_list, Plan};
use random::Random;
use std::slice;

/// A group of an image: its seed, and the tags in its slots.
type Group = (u32, Vec<u32>);

/// The image of these groups, as many as there are.
fn image(groups: &[Group]) -> Vec<u8> {
    let count: usize = groups.iter().map(|(_, slots)| slots.len()).sum();
    let mut image = line_of_two(count as u64, groups.len() as u64);
    let mut start = 0;
    for (seed, slots) in groups {
        image.extend(line_of_two(start, u64::from(*seed)));
        start += slots.len() as u64;
    }
    for &tag in groups.iter().flat_map(|(_, slots)| slots) {
        image.extend(line_of_tag(tag));
    }
    image
}

/// Every way in which a group's tags, ascending, can stand under a seed, the one that is taken first.
fn standings(tags: &[u32], seed: u32) -> Vec<Group> {
    let pairs = places(tags, seed);
    let mut words = in_order(tags.len());
    words.retain(|&word| all_different(&pairs, word));
    let standing = |word: u32| {
        let mut slots = vec![0; tags.len()];
        for (index, &tag) in tags.iter().enumerate() {
            slots[pairs[index][(word >> index & 1) as usize] as usize] = tag;
        }
        (seed, slots)
    };
    let mut standings: Vec<Group> = words.into_iter().map(standing).collect();
    // A tag with two equal places stands alike under both choices.
    let mut met = Vec::new();
    standings.retain(|group| {
        let new = !met.contains(group);
        met.push(group.clone());
        new
    });
    standings
}

/// The ways in which a group can stand under all seeds up to this one: the first is building's.
fn standings_up_to(tags: &[u32], seed: u32) -> Vec<Group> {
    (0..=seed).flat_map(|seed| standings(tags, seed)).collect()
}

#[test]
fn the_whole_case_is_accepted_and_each_group_is_named() {
    assert_eq!(strict_check(WHOLE_CASE_IMAGE), Ok(()));
    // Every seed serves group 0, which has tag 2 alone.
    for line in [b"    0    1\n", b"    065535\n"] {
        let edited = with_line(WHOLE_CASE_IMAGE, 1, line);
        assert_eq!(check(&edited), Ok(()));
        assert_eq!(strict_check(&edited), Err(refusal(19, 0)));
    }
    // Group 1 has 1 and 3, and stands under other seeds too.
    let later = standings_up_to(&[1, 3], 20);
    assert_eq!(later[0], (1, vec![1, 3]));
    assert!(later.len() > 1);
    for group in &later[1..] {
        let edited = image(&[(0, vec![2]), group.clone()]);
        assert_eq!(check(&edited), Ok(()));
        assert_eq!(strict_check(&edited), Err(refusal(19, 1)));
        // Of two the lower one is named.
        let both = image(&[(7, vec![2]), group.clone()]);
        assert_eq!(strict_check(&both), Err(refusal(19, 0)));
    }
}

#[test]
fn what_building_writes_is_accepted_for_every_l_that_serves() {
    let mut random = Random::new(71);
    for (groups, count) in [(1, 0), (512, 0), (1, 1), (1, 12), (5, 40), (40, 300)] {
        let tags = random.tags(count);
        let image = image_of(&tags, groups, 65_536).unwrap();
        assert_eq!(strict_check(&image), Ok(()));
        // The least L that serves gives the same bytes: the seeds are the least of all 65,536.
        let plan = plan_list(&tags, groups, 65_536).unwrap();
        let least = 1 + plan.seeds.iter().max().unwrap();
        assert_eq!(image_of(&tags, groups, least).unwrap(), image);
    }
}

#[test]
fn of_all_standings_of_a_group_building_s_alone_is_accepted() {
    let mut random = Random::new(72);
    let mut met = (0, 0);
    for size in 0..=5 {
        for _ in 0..12 {
            let tags = random.tags(size);
            let all = standings_up_to(&tags, 40);
            let built = image_of(&tags, 1, 65_536).unwrap();
            for group in &all {
                let image = image(slice::from_ref(group));
                assert_eq!(check(&image), Ok(()));
                let expected = if image == built {
                    Ok(())
                } else {
                    Err(refusal(19, 0))
                };
                assert_eq!(strict_check(&image), expected, "{group:?}");
                met.0 += usize::from(image == built);
                met.1 += usize::from(image != built && group.0 == all[0].0);
            }
            // The first of all is building's: the least seed, then the order of choices.
            assert_eq!(image(&all[..1]), built);
        }
    }
    // Each list once, and other sequences under the least seed too.
    assert_eq!(met.0, 6 * 12);
    assert!(met.1 > 10);
}

#[test]
fn nineteen_names_the_lowest_group_that_is_not_as_built() {
    let sizes = [2, 0, 3, 1, 0, 2];
    let parts: Vec<(u32, usize)> = (0..).zip(sizes).collect();
    let tags = tags_of_groups(&parts, 6);
    let built: Vec<Group> = (0..6)
        .map(|group| standings_up_to(&tags_of_group(group, 6, sizes[group as usize]), 99).remove(0))
        .collect();
    assert_eq!(image(&built), image_of(&tags, 6, 65_536).unwrap());
    assert_eq!(strict_check(&image(&built)), Ok(()));
    let edited: Vec<Group> = (0..6)
        .map(|group| standings_up_to(&tags_of_group(group, 6, sizes[group as usize]), 99).remove(1))
        .collect();
    // Every set of edited groups.
    for set in 1..1u32 << 6 {
        let groups: Vec<Group> = (0..6)
            .map(|group| [&built, &edited][(set >> group & 1) as usize][group].clone())
            .collect();
        let image = image(&groups);
        assert_eq!(check(&image), Ok(()));
        let lowest = u64::from(set.trailing_zeros());
        assert_eq!(strict_check(&image), Err(refusal(19, lowest)));
        assert_eq!(answer_strict_check(&image), (19 << 32) + lowest);
    }
}

#[test]
fn the_seed_of_an_empty_group_must_be_0() {
    for groups in [1, 2, 3, 512] {
        let built = image_of(&[], groups, 1).unwrap();
        assert_eq!(strict_check(&built), Ok(()));
        for group in [0, groups / 2, groups - 1] {
            for seed in [1, 2, 9, 65_535] {
                let line = line_of_two(0, seed);
                let edited = with_line(&built, 1 + group as usize, &line);
                assert_eq!(check(&edited), Ok(()));
                assert_eq!(strict_check(&edited), Err(refusal(19, group.into())));
            }
        }
    }
}

#[test]
fn a_group_of_one_tag_has_seed_0() {
    for tag in [1, 7, 1 << 31, u32::MAX] {
        assert_eq!(strict_check(&image(&[(0, vec![tag])])), Ok(()));
        for seed in [1, 2, 65_535] {
            let edited = image(&[(seed, vec![tag])]);
            assert_eq!(check(&edited), Ok(()));
            assert_eq!(strict_check(&edited), Err(refusal(19, 0)));
        }
    }
}

#[test]
fn an_image_written_under_a_later_seed_is_not_ours_though_lookup_finds_its_tags() {
    let mut random = Random::new(73);
    for (groups, count) in [(1, 9), (4, 40), (9, 200)] {
        let tags = random.tags(count);
        let least = plan_list(&tags, groups, 65_536).unwrap();
        for group in 0..groups {
            let part: Vec<u32> = tags
                .iter()
                .copied()
                .filter(|&tag| group_of(tag, groups) == group)
                .collect();
            let mut plan: Plan = least;
            let seed = &mut plan.seeds[group as usize];
            *seed = (*seed + 1..65_536)
                .find(|&seed| serves(&part, seed))
                .unwrap();
            let mut edited = vec![0; 11 * (1 + groups as usize + tags.len())];
            write_list(&tags, &plan, &mut edited).unwrap();
            assert_eq!(check(&edited), Ok(()));
            assert!(matches!(lookup(&edited, tags[0]), Ok(Found::Number(_))));
            assert_eq!(strict_check(&edited), Err(refusal(19, group.into())));
        }
    }
}

#[test]
fn a_group_in_which_two_tags_have_changed_places_is_not_ours() {
    // Two tags that may each stand where the other stands.
    let mut random = Random::new(74);
    for size in [2, 31, 32] {
        let mut met = 0;
        while met < 3 {
            let tags = random.tags(size);
            let Ok(built) = image_of(&tags, 1, 65_536) else {
                continue;
            };
            let seed: u32 = String::from_utf8_lossy(&built[16..21])
                .trim()
                .parse()
                .unwrap();
            let n = size as u32;
            let slot = |index: usize| {
                let line = String::from_utf8_lossy(&built[22 + 11 * index..32 + 11 * index]);
                line.trim().parse::<u32>().unwrap()
            };
            let may_stand = |tag: u32, place: usize| {
                (0..2).any(|choice| place_of(n, seed, choice, tag) as usize == place)
            };
            for first in 0..size {
                for second in first + 1..size {
                    if may_stand(slot(first), second) && may_stand(slot(second), first) {
                        let edited = with_line(&built, 2 + first, &line_of_tag(slot(second)));
                        let edited = with_line(&edited, 2 + second, &line_of_tag(slot(first)));
                        assert_eq!(check(&edited), Ok(()));
                        assert_eq!(strict_check(&edited), Err(refusal(19, 0)));
                        met += 1;
                    }
                }
            }
            assert_eq!(strict_check(&built), Ok(()));
        }
    }
}

#[test]
fn an_edit_that_makes_the_image_of_another_list_is_accepted() {
    // Tag 2 becomes 4: both are alone in group 0 of two.
    assert_eq!((group_of(2, 2), group_of(4, 2)), (0, 0));
    let edited = with_line(WHOLE_CASE_IMAGE, 3, b"         4\n");
    assert_eq!(strict_check(&edited), Ok(()));
    assert_eq!(image_of(&[1, 3, 4], 2, 9).unwrap(), edited);
}

#[test]
fn all_refusals_of_checking_come_before_19() {
    // Group 0 has tag 2 under seed 1, so that 19 would be due at it.
    let edited = with_line(WHOLE_CASE_IMAGE, 1, b"    0    1\n");
    assert_eq!(strict_check(&edited), Err(refusal(19, 0)));
    let faults: [(Vec<u8>, u32, u64); 9] = [
        (edited[..10].to_vec(), 11, 0),
        (with_line(&edited, 0, b"    3    0\n"), 12, 0),
        (edited[..55].to_vec(), 11, 0),
        (with_line(&edited, 2, b"    165536\n"), 12, 2),
        (with_line(&edited, 5, b"        03\n"), 12, 5),
        (with_line(&edited, 5, b"         0\n"), 17, 2),
        (with_line(&edited, 2, b"    4    1\n"), 13, 1),
        (with_line(&edited, 5, b"         2\n"), 14, 2),
        (with_line(&edited, 3, b"         3\n"), 14, 0),
    ];
    for (image, number, place) in faults {
        assert_eq!(check(&image), Err(refusal(number, place)));
        assert_eq!(strict_check(&image), Err(refusal(number, place)));
    }
    // 15 at the last slot, and 19 at the group before: a tag that may stand in both slots, twice.
    let both = |&tag: &u32| {
        let pair = [0, 1].map(|choice| place_of(2, 9, choice, tag));
        group_of(tag, 2) == 1 && pair[0] != pair[1]
    };
    let tag = (1..).find(both).unwrap();
    let repeated = image(&[(1, vec![2]), (9, vec![tag, tag])]);
    assert_eq!(check(&repeated), Err(refusal(15, 2)));
    assert_eq!(strict_check(&repeated), Err(refusal(15, 2)));
}

#[test]
fn every_byte_changed_is_refused_or_makes_the_image_of_another_list() {
    let tags = tags_of_groups(&[(0, 3), (2, 1)], 3);
    let built = image_of(&tags, 3, 65_536).unwrap();
    let mut accepted = 0;
    for at in 0..built.len() {
        for step in 1..=255 {
            let mut edited = built.clone();
            edited[at] = edited[at].wrapping_add(step);
            let answer = strict_check(&edited);
            match check(&edited) {
                Err(refusal) => assert_eq!(answer, Err(refusal)),
                Ok(()) => {
                    let mut slots: Vec<u32> = edited[44..]
                        .chunks(11)
                        .map(|line| String::from_utf8_lossy(line).trim().parse().unwrap())
                        .collect();
                    slots.sort_unstable();
                    let ours = image_of(&slots, 3, 65_536).unwrap() == edited;
                    assert_eq!(answer.is_ok(), ours);
                    accepted += usize::from(ours);
                }
            }
        }
    }
    assert!(accepted > 0);
}
