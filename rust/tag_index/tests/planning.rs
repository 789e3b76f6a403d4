//! Building in two calls through the binding: the plan on one day, the image under it at the shift
//! change, and what becomes of a list that is another by then. Plans of every origin: stored, edited,
//! of a refused planning.

use tag_index::raw::{self, PLAN_CELLS};
use tag_index::{BuildError, Index, Plan, Reason, Refusal, LARGEST_GROUP};

fn refusal(reason: Reason, place: u32) -> Refusal {
    Refusal { reason, place }
}

/// The plan with B and these seeds, and 0 behind them.
fn plan_of(groups: u32, seeds: &[u32]) -> Plan {
    let mut cells = [0; PLAN_CELLS];
    cells[0] = groups;
    cells[1..=seeds.len()].copy_from_slice(seeds);
    Plan::from(cells)
}

/// Document 01's formulas: the group of a tag, and its place in a group of n tags.
fn group_of(tag: u32, groups: u32) -> u32 {
    ((u64::from(tag.wrapping_mul(2_246_822_507)) * u64::from(groups)) >> 32) as u32
}

fn place_of(n: usize, seed: u32, choice: u32, tag: u32) -> usize {
    let multiplier = (4 * seed + 2 * choice + 1).wrapping_mul(2_654_435_761);
    ((u64::from(multiplier.wrapping_mul(tag)) * n as u64) >> 32) as usize
}

/// The choice sequence that is taken for a group under the seed, found by trying all of them: of those
/// that fill the one with the fewest second places, and between equals the one that gives the lowest tag
/// on which they differ its first.
fn sequence_taken(tags: &[u32], seed: u32) -> Option<Vec<u32>> {
    let n = tags.len();
    let mut sequences: Vec<Vec<u32>> = (0..1u32 << n)
        .map(|word| (0..n).map(|bit| word >> bit & 1).collect())
        .collect();
    sequences.sort_by_key(|choices| (choices.iter().sum::<u32>(), choices.clone()));
    sequences.into_iter().find(|choices| {
        let mut places: Vec<usize> = tags
            .iter()
            .zip(choices)
            .map(|(&tag, &choice)| place_of(n, seed, choice, tag))
            .collect();
        places.sort_unstable();
        places.into_iter().eq(0..n)
    })
}

/// Document 02, §3: the image of the tags under the plan's B and seeds, or the lowest group that no
/// choice sequence fills.
fn stated(tags: &[u32], seeds: &[u32]) -> Result<Vec<u8>, u32> {
    let groups = seeds.len() as u32;
    let mut group_lines = String::new();
    let mut slots = Vec::new();
    for (group, &seed) in (0..groups).zip(seeds) {
        let mut part = tags.to_vec();
        part.retain(|&tag| group_of(tag, groups) == group);
        let choices = sequence_taken(&part, seed).ok_or(group)?;
        let start = slots.len();
        group_lines += &format!("{start:>5}{seed:>5}\n");
        slots.resize(start + part.len(), 0);
        for (&tag, choice) in part.iter().zip(choices) {
            slots[start + place_of(part.len(), seed, choice, tag)] = tag;
        }
    }
    let mut image = format!("{:>5}{groups:>5}\n{group_lines}", tags.len());
    for tag in slots {
        image += &format!("{tag:>10}\n");
    }
    Ok(image.into_bytes())
}

#[test]
fn planned_on_one_day_and_written_at_the_shift_change() {
    let tags: Vec<u32> = (0..4_096).map(|tag| (tag << 20) | (4_096 - tag)).collect();
    for (groups, count) in [(1, 0), (1, 3), (2, 40), (171, 2_000), (512, 4_096)] {
        let tags = &tags[..count];
        let plan = tag_index::plan_list(groups, 65_536, tags).unwrap();
        assert_eq!(plan.groups(), groups);
        assert!(plan.as_cells()[1 + groups as usize..]
            .iter()
            .all(|&cell| cell == 0));
        let image = tag_index::image_under(tags, &plan).unwrap();
        assert_eq!(image, tag_index::image_of(groups, 65_536, tags).unwrap());
        // The plan has the seeds of the group lines.
        for group in 0..groups {
            let line = &image[11 * (1 + group as usize)..][..10];
            let seed = std::str::from_utf8(&line[5..]).unwrap().trim_start();
            assert_eq!(seed.parse(), Ok(plan.seed(group).unwrap()));
        }
        assert_eq!(plan.seed(groups), None);
        let index = Index::new(&image).unwrap();
        assert_eq!((index.len(), index.groups()), (count, groups));
    }
}

#[test]
fn each_seed_of_a_plan_is_the_least_that_serves_its_group() {
    let tags: Vec<u32> = (1..=60).map(|step| step * step * 104_729).collect();
    let groups = 5;
    let plan = tag_index::plan_list(groups, 65_536, &tags).unwrap();
    for group in 0..groups {
        let mut part = tags.clone();
        part.retain(|&tag| group_of(tag, groups) == group);
        let placement = tag_index::place_group(&part, 65_536).unwrap();
        assert_eq!(plan.seed(group), Some(placement.seed));
    }
}

#[test]
fn a_list_under_the_plan_of_another_is_written_or_refused_with_18() {
    // Lists that differ in two tags at most, in three groups of up to nine.
    let list = |last: [u32; 2]| {
        let mut tags: Vec<u32> = (1..=10).map(|step| step * 7_919).collect();
        tags.extend(last.map(|tag| 80_000 + tag));
        tags
    };
    let plans = [[1, 2], [3, 4], [5, 99], [1_000, 2_000]].map(|last| {
        let tags = list(last);
        tag_index::plan_list(3, 65_536, &tags).unwrap()
    });
    let mut refused = [0; 3];
    let mut written = 0;
    for plan in &plans {
        let seeds = &plan.as_cells()[1..4];
        for step in 1..=60 {
            let tags = list([step, 61 * step]);
            let mut image = [b'.'; 11 * 16 + 4];
            let answer = tag_index::write_list(&tags, plan, &mut image);
            match stated(&tags, seeds) {
                Ok(expected) => {
                    assert_eq!(answer, Ok(expected.len()));
                    assert_eq!(image[..expected.len()], expected);
                    assert_eq!(&image[expected.len()..], b"....");
                    Index::new(&expected).unwrap();
                    written += 1;
                }
                Err(group) => {
                    assert_eq!(answer, Err(refusal(Reason::SeedDoesNotServe, group)));
                    assert_eq!(image, [b'.'; 11 * 16 + 4]);
                    refused[group as usize] += 1;
                }
            }
        }
    }
    // Both came often, and 18 at every group.
    assert!(written > 9, "{written}");
    assert!(refused.iter().all(|&count| count > 9), "{refused:?}");
}

#[test]
fn writing_takes_the_fewest_second_places_under_any_seed_of_a_plan() {
    // Under seed 0 the first tag alone takes its second place, or both others do.
    let image = tag_index::image_under(&[1, 2, 12], &plan_of(1, &[0])).unwrap();
    let slots = b"         2\n        12\n         1\n";
    assert_eq!(image[22..], *slots);
    for first in 1..=40 {
        let tags: Vec<u32> = (1..=6).map(|step| step * first * 7_919).collect();
        for seed in (0..20).chain([65_535]) {
            let answer = tag_index::image_under(&tags, &plan_of(1, &[seed]));
            let refused = |group| refusal(Reason::SeedDoesNotServe, group);
            assert_eq!(answer, stated(&tags, &[seed]).map_err(refused));
        }
    }
}

#[test]
fn a_number_that_is_no_seed_is_refused_with_2_at_the_lowest_of_the_first_groups() {
    let tags = [1, 2, 3];
    for (seeds, group) in [
        ([65_536, 1, 0, 0], 0),
        ([0, 65_536, 0, 0], 1),
        ([0, u32::MAX, 65_536, 0], 1),
        ([u32::MAX, u32::MAX, 0, 0], 0),
    ] {
        let refused = tag_index::image_under(&tags, &plan_of(2, &seeds));
        assert_eq!(refused, Err(refusal(Reason::SeedOutOfRange, group)));
    }
    // What stands behind the last group is not looked at.
    let mut cells = [u32::MAX; PLAN_CELLS];
    cells[..3].copy_from_slice(&[2, 0, 1]);
    let image = tag_index::image_under(&tags, &Plan::from(cells)).unwrap();
    assert_eq!(image, tag_index::image_of(2, 9, &tags).unwrap());
    cells[3] = 65_536;
    cells[0] = 3;
    let refused = tag_index::image_under(&tags, &Plan::from(cells));
    assert_eq!(refused, Err(refusal(Reason::SeedOutOfRange, 2)));
}

#[test]
fn an_empty_group_is_written_with_the_seed_of_the_plan() {
    // Tag 2 is in group 0 of two, and group 1 is empty.
    for seed in [0, 7, 65_535] {
        let image = tag_index::image_under(&[2], &plan_of(2, &[3, seed])).unwrap();
        let expected = format!("    1    2\n    0    3\n    1{seed:>5}\n         2\n");
        assert_eq!(image, expected.as_bytes());
        assert_eq!(Index::new(&image).unwrap().lookup(2), Some(0));
    }
    // No tag at all: every plan serves.
    let image = tag_index::image_under(&[], &plan_of(1, &[65_535])).unwrap();
    assert_eq!(image, b"    0    1\n    065535\n");
}

#[test]
fn the_text_s_own_b_and_l_mean_nothing_in_writing() {
    let plan = tag_index::plan_list(2, 9, &[1, 2, 3]).unwrap();
    let image = tag_index::image_of(2, 9, &[1, 2, 3]).unwrap();
    for (groups, limit) in [(0, 0), (1, 1), (513, 65_537), (99_999, 99_999)] {
        let text = tag_index::list_text(groups, limit, &[1, 2, 3]).unwrap();
        let mut buffer = [b'.'; 66];
        assert_eq!(tag_index::write(&text, &plan, &mut buffer), Ok(66));
        assert_eq!(buffer[..], image);
    }
    // But they have to be well formed.
    let text = b"    2    x\n         1\n         2\n         3\n";
    let refused = tag_index::write(text, &plan, &mut [0; 66]);
    assert_eq!(refused, Err(refusal(Reason::MalformedList, 0)));
}

#[test]
fn a_plan_is_stored_and_given_back() {
    let plan = tag_index::plan_list(3, 99, &[5, 6, 7, 1_000, 2_000, 3_000]).unwrap();
    let bytes = plan.to_le_bytes();
    assert_eq!(bytes.len(), tag_index::PLAN_BYTES);
    assert_eq!(Plan::from_le_bytes(&bytes), plan);
    let cells: [u32; PLAN_CELLS] = plan.clone().into();
    assert_eq!(&cells, plan.as_cells());
    assert_eq!(Plan::from(cells), plan);
    // Any numbers and any bytes come back as they were.
    let mut cells = [0; PLAN_CELLS];
    for (index, cell) in (0u32..).zip(&mut cells) {
        *cell = index.wrapping_mul(2_654_435_761);
    }
    let plan = Plan::from(cells);
    assert_eq!(Plan::from_le_bytes(&plan.to_le_bytes()).as_cells(), &cells);
    let bytes = [0xa5; tag_index::PLAN_BYTES];
    assert_eq!(Plan::from_le_bytes(&bytes).to_le_bytes(), bytes);
    assert_ne!(plan, Plan::from_le_bytes(&bytes));
}

#[test]
fn a_plan_has_as_many_seeds_as_groups_and_512_at_most() {
    let plan = plan_of(2, &[8, 9, 10]);
    let seeds = [0, 1, 2, u32::MAX].map(|group| plan.seed(group));
    assert_eq!(seeds, [Some(8), Some(9), None, None]);
    for groups in [512, 513, u32::MAX] {
        let plan = plan_of(groups, &[7; 512]);
        let seeds = [0, 511, 512, u32::MAX].map(|group| plan.seed(group));
        assert_eq!(seeds, [Some(7), Some(7), None, None]);
    }
    assert_eq!(plan_of(0, &[]).seed(0), None);
}

#[test]
fn a_plan_is_shown_without_the_zeros_behind_its_groups() {
    for (plan, shown) in [
        (plan_of(2, &[0, 1]), "Plan { groups: 2, seeds: [0, 1] }"),
        (plan_of(2, &[]), "Plan { groups: 2, seeds: [0, 0] }"),
        (plan_of(0, &[]), "Plan { groups: 0, seeds: [] }"),
        (plan_of(1, &[0, 5]), "Plan { groups: 1, seeds: [0, 5] }"),
    ] {
        assert_eq!(format!("{plan:?}"), shown);
    }
    let shown = format!("{:?}", plan_of(u32::MAX, &[]));
    assert!(shown.starts_with("Plan { groups: 4294967295, seeds: [0, 0, "));
}

#[test]
fn planning_refuses_in_order_and_leaves_zeros() {
    let too_many: Vec<u32> = (0..4_097).collect();
    let crowded: Vec<u32> = (0..=LARGEST_GROUP as u32).map(|tag| 9 + tag).collect();
    let list_text =
        |groups, limit, tags: &[u32]| tag_index::list_text(groups, limit, tags).unwrap();
    for (text, reason, place) in [
        (vec![b' '; 65_538], Reason::TooManyTags, 0),
        (b"    2    9".to_vec(), Reason::MalformedList, 0),
        (
            b"    0    0\n         x\n".to_vec(),
            Reason::MalformedList,
            1,
        ),
        (list_text(0, 0, &too_many), Reason::TooManyTags, 0),
        (list_text(0, 0, &[5, 5]), Reason::GroupCountOutOfRange, 0),
        (list_text(513, 9, &[]), Reason::GroupCountOutOfRange, 0),
        (list_text(1, 0, &[5, 5]), Reason::LimitOutOfRange, 0),
        (list_text(1, 65_537, &[5, 5]), Reason::LimitOutOfRange, 0),
        (list_text(1, 1, &[0, 5, 5]), Reason::NotAscending, 2),
        (list_text(1, 1, &[0, 1, 3]), Reason::UnwiredTag, 0),
        (list_text(1, 1, &crowded), Reason::GroupTooLarge, 0),
        (list_text(1, 1, &[1, 3]), Reason::NoSeed, 0),
        (list_text(2, 1, &[1, 2, 3]), Reason::NoSeed, 1),
        // Seed 1 serves group 0, and none below 2 group 1.
        (list_text(2, 2, &[4, 9, 12, 17]), Reason::NoSeed, 1),
    ] {
        let refused = refusal(reason, place);
        assert_eq!(tag_index::plan(&text), Err(refused));
        for before in [0, 1, u32::MAX] {
            let mut cells = [before; PLAN_CELLS];
            let answer = raw::plan(&text, &mut cells);
            assert_eq!((answer >> 32) as u32, reason.number());
            assert_eq!(answer as u32, place);
            assert_eq!(cells, [0; PLAN_CELLS]);
        }
    }
    let error = tag_index::plan_list(2, 1, &[1, 2, 3]).unwrap_err();
    assert_eq!(error, BuildError::Refused(refusal(Reason::NoSeed, 1)));
    assert!(matches!(
        tag_index::plan_list(100_000, 1, &[1]),
        Err(BuildError::TooWide(_))
    ));
}

#[test]
fn the_plan_of_a_refused_planning_has_no_groups_and_nothing_is_written_under_it() {
    let mut cells = [9; PLAN_CELLS];
    let text = tag_index::list_text(2, 1, &[1, 2, 3]).unwrap();
    assert_eq!(raw::plan(&text, &mut cells), (7 << 32) + 1);
    let plan = Plan::from(cells);
    assert_eq!(plan.groups(), 0);
    for tags in [&[][..], &[1, 2, 3], &[5, 5]] {
        let mut image = [b'.'; 70];
        let refused = tag_index::write_list(tags, &plan, &mut image);
        assert_eq!(refused, Err(refusal(Reason::GroupCountOutOfRange, 0)));
        assert_eq!(image, [b'.'; 70]);
    }
}

#[test]
fn writing_refuses_in_order_and_leaves_the_buffer_alone() {
    let crowded: Vec<u32> = (0..=LARGEST_GROUP as u32).map(|tag| 9 + tag).collect();
    // Seed 0 serves tag 1 alone, and not 1 with 3.
    for (tags, plan, room, reason, place) in [
        (
            &[5, 5][..],
            plan_of(0, &[]),
            0,
            Reason::GroupCountOutOfRange,
            0,
        ),
        (
            &[5, 5],
            plan_of(513, &[u32::MAX]),
            0,
            Reason::GroupCountOutOfRange,
            0,
        ),
        (
            &[5, 5],
            plan_of(u32::MAX, &[]),
            0,
            Reason::GroupCountOutOfRange,
            0,
        ),
        (&[5, 5], plan_of(1, &[65_536]), 0, Reason::SeedOutOfRange, 0),
        (
            &[0, 5, 5],
            plan_of(1, &[65_535]),
            0,
            Reason::NotAscending,
            2,
        ),
        (&[0, 1, 3], plan_of(1, &[0]), 0, Reason::UnwiredTag, 0),
        (&crowded, plan_of(1, &[0]), 384, Reason::BufferTooShort, 0),
        (&crowded, plan_of(1, &[0]), 385, Reason::GroupTooLarge, 0),
        (&[1, 3], plan_of(1, &[0]), 43, Reason::BufferTooShort, 0),
        (&[1, 3], plan_of(1, &[0]), 44, Reason::SeedDoesNotServe, 0),
        (
            &[1, 2, 3],
            plan_of(2, &[0, 0]),
            66,
            Reason::SeedDoesNotServe,
            1,
        ),
    ] {
        let mut image = vec![b'.'; room];
        let refused = tag_index::write_list(tags, &plan, &mut image);
        assert_eq!(refused, Err(refusal(reason, place)));
        assert!(image.iter().all(|&byte| byte == b'.'));
    }
    let too_many: Vec<u32> = (0..4_097).collect();
    let refused = tag_index::image_under(&too_many, &plan_of(0, &[]));
    assert_eq!(refused, Err(refusal(Reason::TooManyTags, 0)));
}

#[test]
fn building_refuses_a_short_buffer_last() {
    let crowded: Vec<u32> = (0..=LARGEST_GROUP as u32).map(|tag| 9 + tag).collect();
    for (groups, limit, tags, reason, place) in [
        (1, 1, &crowded[..], Reason::GroupTooLarge, 0),
        (2, 1, &[1, 2, 3], Reason::NoSeed, 1),
        (2, 2, &[1, 2, 3], Reason::BufferTooShort, 0),
    ] {
        let refused = tag_index::build_list(groups, limit, tags, &mut []);
        let refusal = refusal(reason, place);
        assert_eq!(refused, Err(BuildError::Refused(refusal)));
    }
}
