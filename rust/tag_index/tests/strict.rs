//! The strict check through the binding: which images it takes for building's own, and the group that it
//! names in the others.

use tag_index::{Index, Plan, Reason, Refusal};

const IMAGE: &[u8] = b"    3    2\n    0    0\n    1    1\n         2\n         1\n         3\n";

fn refusal(reason: Reason, place: u32) -> Refusal {
    Refusal { reason, place }
}

/// The whole case with lines replaced.
fn with_lines(lines: &[(usize, &[u8; 11])]) -> Vec<u8> {
    let mut image = IMAGE.to_vec();
    for &(index, line) in lines {
        image[11 * index..11 * (index + 1)].copy_from_slice(line);
    }
    image
}

/// So many different tags, ascending, of no pattern.
fn tags(count: u32) -> Vec<u32> {
    let mut tags: Vec<u32> = (1..=count)
        .map(|k| k.wrapping_mul(0x9E37_79B1) ^ 0x5555)
        .collect();
    tags.sort_unstable();
    tags
}

/// Document 01's formula for the group of a tag.
fn group_of(tag: u32, groups: u32) -> u32 {
    ((u64::from(tag.wrapping_mul(2_246_822_507)) * u64::from(groups)) >> 32) as u32
}

#[test]
fn whatever_building_writes_is_accepted() {
    for (groups, count) in [(1, 0), (1, 1), (7, 0), (7, 60), (512, 700), (512, 4_096)] {
        for limit in [999, 65_536] {
            let image = tag_index::image_of(groups, limit, &tags(count)).unwrap();
            assert_eq!(tag_index::strict_check(&image), Ok(()));
        }
    }
}

#[test]
fn what_is_written_under_a_later_seed_is_refused_at_its_group() {
    let (groups, tags) = (5, tags(30));
    let own = tag_index::plan_list(groups, 65_536, &tags).unwrap();
    let written = tag_index::image_under(&tags, &own).unwrap();
    assert_eq!(tag_index::strict_check(&written), Ok(()));
    let mut met = 0;
    for later in 1..400 {
        for group in 0..groups as usize {
            // The least seed and so many more, for this group and for all behind it.
            let mut cells = *own.as_cells();
            for cell in &mut cells[1 + group..=groups as usize] {
                *cell += later;
            }
            let Ok(image) = tag_index::image_under(&tags, &Plan::from(cells)) else {
                continue;
            };
            // Checking accepts, and every tag is found.
            let index = Index::new(&image).unwrap();
            assert!(tags.iter().all(|&tag| index.lookup(tag).is_some()));
            let refused = refusal(Reason::NotAsBuilt, group as u32);
            assert_eq!(tag_index::strict_check(&image), Err(refused));
            met += 1;
        }
    }
    assert!(met > 10);
}

#[test]
fn an_empty_group_must_have_seed_0() {
    let own = tag_index::plan_list(9, 65_536, &[]).unwrap();
    for group in 0..9 {
        let mut cells = *own.as_cells();
        cells[1 + group] = 1;
        let image = tag_index::image_under(&[], &Plan::from(cells)).unwrap();
        assert_eq!(tag_index::check(&image), Ok(()));
        let refused = refusal(Reason::NotAsBuilt, group as u32);
        assert_eq!(tag_index::strict_check(&image), Err(refused));
    }
}

#[test]
fn what_checking_refuses_is_refused_alike() {
    // Seed 7 of group 0 is not building's, so that 19 is due too.
    let seed_7: (usize, &[u8; 11]) = (1, b"    0    7\n");
    assert_eq!(
        tag_index::strict_check(&with_lines(&[seed_7])),
        Err(refusal(Reason::NotAsBuilt, 0))
    );
    for (line, text, reason, place) in [
        (0, b"    3    3\n", Reason::WrongLength, 0),
        (2, b"    165536\n", Reason::MalformedLine, 2),
        (5, b"         0\n", Reason::UnwiredTag, 2),
        (2, b"    4    1\n", Reason::FaultyGroup, 1),
        (5, b"         2\n", Reason::WrongSlot, 2),
        (4, b"         3\n", Reason::RepeatedTag, 2),
    ] {
        let damaged = with_lines(&[seed_7, (line, text)]);
        let refused = Err(refusal(reason, place));
        assert_eq!(tag_index::check(&damaged), refused);
        assert_eq!(tag_index::strict_check(&damaged), refused);
    }
    for length in 0..66 {
        let cut = &IMAGE[..length];
        assert_eq!(tag_index::strict_check(cut), tag_index::check(cut));
        assert!(tag_index::check(cut).is_err());
    }
}

#[test]
fn the_image_of_another_list_is_accepted() {
    // Tag 2 becomes 4, which is alone in the same group.
    assert_eq!((group_of(2, 2), group_of(4, 2)), (0, 0));
    let edited = with_lines(&[(3, b"         4\n")]);
    assert_eq!(tag_index::strict_check(&edited), Ok(()));
    assert_eq!(tag_index::image_of(2, 9, &[1, 3, 4]).unwrap(), edited);
}
