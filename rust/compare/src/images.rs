//! Images, whole and damaged: checking, the strict check, and lookups of tags that are there and tags that are not.

use model::hash::group_of;
use model::line::{line_of_tag, line_of_two, read_tag, read_two, LINE};
use random::Random;

use crate::lists::{absent_tags, full, large, structured, tags_of_group, Case};
use crate::tally::Tally;
use crate::Size;

pub fn compare(tally: &mut Tally, random: &mut Random, size: &Size) {
    let cases = small_cases(random);
    for case in &cases[..size.small_images.min(cases.len())] {
        let image = image_of(case);
        let tags = asked(random, case, 5);
        small(tally, &image, &tags, size);
        lines(tally, &image, &tags);
        unwired(tally, case, &image, &tags);
    }
    hand_made(tally);
    for _ in 0..size.full_images {
        let case = full(random);
        if let Ok(image) = model::image_of(&case.tags, case.groups, case.limit) {
            sampled(tally, random, &case, &image, 12);
            moved_starts(tally, random, &case, &image);
        }
    }
    for _ in 0..size.lists {
        for (_, case) in structured(random) {
            if let Ok(image) = model::image_of(&case.tags, case.groups, case.limit) {
                sampled(tally, random, &case, &image, 12);
            }
        }
    }
    for _ in 0..size.large_images {
        let case = large(random);
        sampled(tally, random, &case, &image_of(&case), size.large_samples);
    }
}

fn image_of(case: &Case) -> Vec<u8> {
    model::image_of(&case.tags, case.groups, case.limit).expect("the case has an image")
}

/// Images of at most 20 lines: of few groups and of many, full and empty ones.
fn small_cases(random: &mut Random) -> Vec<Case> {
    let mut cases = vec![
        Case::new(2, 9, [1, 2, 3]),
        Case::new(1, 1, []),
        Case::new(1, 99, [1, 1 << 31, u32::MAX]),
        Case::new(3, 99, []),
        Case::new(17, 99, [5, 70_001]),
    ];
    // 20 lines: 3 groups and 16 tags, 9 and 10, 1 and 18.
    for (groups, count) in [(3, 16), (9, 10), (1, 18)] {
        loop {
            let mut tags: Vec<u32> = (0..count).map(|_| random.tag()).collect();
            tags.sort_unstable();
            tags.dedup();
            if tags.len() == count && model::image_of(&tags, groups, 65_536).is_ok() {
                cases.push(Case::new(groups, 65_536, tags));
                break;
            }
        }
    }
    cases
}

/// Tags to look up: at most so many that are listed, and some that are not.
fn asked(random: &mut Random, case: &Case, most: usize) -> Vec<u32> {
    let mut tags: Vec<u32> = absent_tags(random, case).into_iter().take(most).collect();
    let step = case.tags.len() / most + 1;
    tags.extend(case.tags.iter().step_by(step));
    tags
}

/// What both sides say of one image.
fn examine(tally: &mut Tally, image: &[u8], tags: &[u32]) {
    let checked = tally.check(image);
    tally.strict_check(image);
    let found: Vec<(u32, u64)> = tags
        .iter()
        .map(|&tag| (tag, tally.lookup(image, tag)))
        .collect();
    tally.index(image, checked, &found);
}

/// Every byte with all other values, every cut, and bytes behind.
fn small(tally: &mut Tally, image: &[u8], tags: &[u32], size: &Size) {
    assert!(image.len() <= 20 * LINE);
    tally.kind("whole small images");
    examine(tally, image, tags);

    tally.kind("each byte of an image set to all other values");
    let mut changed = image.to_vec();
    for at in 0..image.len() {
        for step in (1..256).step_by(size.byte_step) {
            changed[at] = image[at].wrapping_add(step as u8);
            examine(tally, &changed, tags);
        }
        changed[at] = image[at];
    }
    tally.kind("every cut of an image");
    for length in 0..image.len() {
        examine(tally, &image[..length], tags);
    }
    tally.kind("images with bytes lost, added or moved");
    for at in 0..image.len() {
        let lost = [&image[..at], &image[at + 1..]].concat();
        examine(tally, &lost, tags);
        examine(tally, &[&lost[..], b"\n"].concat(), tags);
        let mut moved = image.to_vec();
        moved[at..].rotate_left(1);
        examine(tally, &moved, tags);
        let added = [&image[..at], b" ", &image[at..]].concat();
        examine(tally, &added, tags);
        examine(tally, &added[..image.len()], tags);
    }
    tally.kind("images with bytes behind");
    for more in [&b"\n"[..], b" ", b"         7\n", b"    0    0\n"] {
        examine(tally, &[image, more].concat(), tags);
    }
}

/// Whole lines: swapped, put in each other's place, and replaced by others.
fn lines(tally: &mut Tally, image: &[u8], tags: &[u32]) {
    let count = image.len() / LINE;
    for first in 0..count {
        for second in first + 1..count {
            tally.kind("swapped lines");
            let mut changed = image.to_vec();
            let (one, other) = changed.split_at_mut(LINE * second);
            one[LINE * first..][..LINE].swap_with_slice(&mut other[..LINE]);
            examine(tally, &changed, tags);

            tally.kind("doubled lines");
            for (from, to) in [(first, second), (second, first)] {
                let mut changed = image.to_vec();
                changed.copy_within(LINE * from..LINE * (from + 1), LINE * to);
                examine(tally, &changed, tags);
            }
        }
    }
    for index in 0..count {
        tally.kind("foreign lines");
        for line in crate::texts::LINES.iter().chain(&crate::texts::HEADERS) {
            put(tally, image, index, *line, tags);
        }
        tally.kind("foreign tags");
        for &tag in tags {
            put(tally, image, index, &line_of_tag(tag), tags);
        }
        tally.kind("other numbers in line 0 and in group lines");
        if let Some((first, second)) = read_two(&image[LINE * index..][..LINE]) {
            for (first, second) in other_pairs(first, second) {
                put(tally, image, index, &line_of_two(first, second), tags);
            }
        }
        tally.kind("lost and added lines");
        let rest = &image[LINE * (index + 1)..];
        examine(tally, &[&image[..LINE * index], rest].concat(), tags);
        examine(
            tally,
            &[&image[..LINE * (index + 1)], &image[LINE * index..]].concat(),
            tags,
        );
    }
}

/// A line that holds tag 0.
const UNWIRED: &[u8; LINE] = b"         0\n";

/// Tag 0 in one slot, in two and in all: alone, and with a malformed line, a group at fault, a wrong
/// or a repeated tag. Lookups are of the tags given and of some in the group of tag 0.
fn unwired(tally: &mut Tally, case: &Case, image: &[u8], tags: &[u32]) {
    let first_slot = 1 + case.groups as usize;
    let count = case.tags.len();
    let tags = [tags, &tags_of_group(0, case.groups, 2)].concat();
    let tags = &tags[..];
    let holding_0 = |slots: &[usize]| {
        let mut changed = image.to_vec();
        for slot in slots {
            changed[LINE * (first_slot + slot)..][..LINE].copy_from_slice(UNWIRED);
        }
        changed
    };
    tally.kind("tag 0 in all slots");
    examine(tally, &holding_0(&(0..count).collect::<Vec<_>>()), tags);
    for slot in 0..count {
        tally.kind("tag 0 in a slot");
        let changed = holding_0(&[slot]);
        examine(tally, &changed, tags);
        tally.kind("tag 0 in two slots");
        for other in slot + 1..count {
            examine(tally, &holding_0(&[slot, other]), tags);
        }
        for line in (0..first_slot + count).filter(|&line| line != first_slot + slot) {
            tally.kind("tag 0 in a slot and a malformed line");
            for malformed in [b"          \n", b"        02\n", b"    0    0\r"] {
                put(tally, &changed, line, malformed, tags);
            }
            if line >= first_slot {
                tally.kind("tag 0 in a slot and a wrong or repeated tag");
                for &tag in tags.iter().chain(&case.tags) {
                    put(tally, &changed, line, &line_of_tag(tag), tags);
                }
            } else if line > 0 {
                tally.kind("tag 0 in a slot and a faulty group");
                let (start, seed) = read_two(&image[LINE * line..][..LINE]).expect("a group line");
                for (start, seed) in other_pairs(start, seed) {
                    put(tally, &changed, line, &line_of_two(start, seed), tags);
                }
            }
        }
    }
}

/// Examines the image with one line replaced.
fn put(tally: &mut Tally, image: &[u8], index: usize, line: &[u8], tags: &[u32]) {
    let mut changed = image.to_vec();
    changed[LINE * index..LINE * (index + 1)].copy_from_slice(line);
    examine(tally, &changed, tags);
}

/// Neighbours of both numbers, and the ends of all ranges.
pub fn other_pairs(first: u32, second: u32) -> Vec<(u64, u64)> {
    let around = |value: u32| {
        let ends = [
            0, 1, 2, 32, 33, 512, 513, 4_096, 4_097, 65_535, 65_536, 99_999,
        ];
        let near = [value.saturating_sub(1), value + 1, value + 32, value + 33];
        ends.into_iter()
            .chain(near.into_iter().filter(|&near| near <= 99_999))
            .map(u64::from)
    };
    let (first_, second_) = (u64::from(first), u64::from(second));
    around(first)
        .map(|other| (other, second_))
        .chain(around(second).map(|other| (first_, other)))
        .collect()
}

/// Images that no building writes: header and length that fit each other and nothing else, ends
/// past N, groups of 32 and 33, a tag twice in one group, next to itself and further apart.
fn hand_made(tally: &mut Tally) {
    tally.kind("images made by hand");
    let tags = [0, 1, 2, 3, 4, 6, 1 << 31, u32::MAX];
    for (count, groups) in [
        (0, 1),
        (0, 2),
        (1, 1),
        (32, 1),
        (33, 1),
        (64, 2),
        (65, 2),
        (0, 512),
        (4_096, 512),
    ] {
        for start in [0, 1, 31, 32, 33, 4_096, 99_999] {
            // From tag 0 on, 17 comes before 13.
            for first in [0, 1] {
                let mut image = line_of_two(count, groups);
                for group in 0..groups {
                    let start = if group == 0 { 0 } else { start };
                    image.extend(line_of_two(start, 65_535));
                }
                for tag in first..first + count as u32 {
                    image.extend(line_of_tag(tag));
                }
                examine(tally, &image, &tags);
            }
        }
    }
    // Ends that lie past N by one and by many, of the first group and of a later one.
    for end in [1, 2, 3, 4, 5, 31, 32, 33, 34, 35] {
        for (first, second) in [(0, end), (end, end), (1, end)] {
            let mut image = line_of_two(3, 3);
            for start in [0, first, second] {
                image.extend(line_of_two(start, 0));
            }
            for tag in [2, 1, 3] {
                image.extend(line_of_tag(tag));
            }
            examine(tally, &image, &tags);
        }
    }
    // One group, each tag at one of its places, with repetitions.
    tally.kind("repeated tags made by hand");
    for seed in 0..200 {
        for size in [2, 3, 5, 25, 32] {
            repeated(tally, seed, size);
        }
    }
}

/// Each start but the first moved, so that the group before it or its own has 31 to 34 tags: 13 at a
/// group of 33, from checking and from lookups of its tags.
fn moved_starts(tally: &mut Tally, random: &mut Random, case: &Case, image: &[u8]) {
    tally.kind("starts moved to groups of 31 to 34 tags");
    let start = |group: usize| match read_two(&image[LINE * (1 + group)..][..LINE]) {
        Some((start, seed)) if group < case.groups as usize => (start, seed),
        _ => (case.tags.len() as u32, 0),
    };
    for group in 1..case.groups as usize {
        let (before, behind) = (start(group - 1).0, start(group + 1).0);
        let tags: Vec<u32> = asked(random, case, 5)
            .into_iter()
            .chain(case.tags.iter().copied().filter(|&tag| {
                let own = group_of(tag, case.groups) as usize;
                (own == group || own + 1 == group) && random.below(4) == 0
            }))
            .collect();
        for size in 31..=34 {
            for moved in [before + size, behind.saturating_sub(size)] {
                let line = line_of_two(u64::from(moved), u64::from(start(group).1));
                put(tally, image, 1 + group, &line, &tags);
            }
        }
    }
}

/// A group in which every slot holds a tag that may stand there, some of them twice.
fn repeated(tally: &mut Tally, seed: u32, size: u32) {
    let candidates = tags_of_group(0, 1, 400);
    let mut random = Random::new(u64::from(seed * 31 + size));
    let mut slots: Vec<Option<u32>> = vec![None; size as usize];
    let places = |tag| [0, 1].map(|choice| model::hash::place_of(size, seed, choice, tag) as usize);
    // One tag at both its places, if they differ; other tags in the rest.
    let twice = candidates
        .iter()
        .find(|&&tag| places(tag)[0] != places(tag)[1]);
    if let Some(&tag) = twice {
        for place in places(tag) {
            slots[place] = Some(tag);
        }
    }
    for _ in 0..2_000 {
        let tag = candidates[random.below(candidates.len())];
        let place = places(tag)[random.below(2)];
        if slots[place].is_none() && (random.below(20) == 0 || !slots.contains(&Some(tag))) {
            slots[place] = Some(tag);
        }
    }
    let mut image = line_of_two(u64::from(size), 1);
    image.extend(line_of_two(0, u64::from(seed)));
    for slot in slots {
        image.extend(line_of_tag(slot.unwrap_or(u32::MAX)));
    }
    let asked: Vec<u32> = twice
        .copied()
        .into_iter()
        .chain([0, 1, 2, u32::MAX])
        .collect();
    examine(tally, &image, &asked);
}

/// Faults drawn at random, each in an image of its own; the lookups are of tags that the changed
/// lines concern and of others.
fn sampled(tally: &mut Tally, random: &mut Random, case: &Case, image: &[u8], samples: usize) {
    tally.kind("whole larger images");
    examine(tally, image, &asked(random, case, 8));
    for _ in 0..samples {
        let (kind, changed) = fault(random, case, image);
        tally.kind(kind);
        let mut tags = asked(random, case, 5);
        tags.extend(concerned(random, case, image, &changed));
        examine(tally, &changed, &tags);
    }
}

/// The tags in the first changed line and about it, or tags of the group whose line it is.
fn concerned(random: &mut Random, case: &Case, image: &[u8], changed: &[u8]) -> Vec<u32> {
    let Some(at) = (0..image.len().min(changed.len())).find(|&at| image[at] != changed[at]) else {
        return Vec::new();
    };
    let line = at / LINE;
    let groups = case.groups as usize;
    let mut tags = Vec::new();
    if line > groups {
        for text in [image, changed] {
            if text.len() >= LINE * (line + 1) {
                tags.extend(read_tag(&text[LINE * line..][..LINE]));
            }
        }
        return tags;
    }
    // Line 1 + g is group g's own and the next line of group g - 1.
    for &tag in &case.tags {
        let group = group_of(tag, case.groups) as usize;
        if (group + 1 == line || group + 2 == line) && random.below(4) == 0 {
            tags.push(tag);
        }
    }
    tags
}

fn fault(random: &mut Random, case: &Case, image: &[u8]) -> (&'static str, Vec<u8>) {
    let mut changed = image.to_vec();
    let count = image.len() / LINE;
    let groups = case.groups as usize;
    let slot = |random: &mut Random| LINE * (1 + groups + random.below(case.tags.len()));
    match random.below(if case.tags.len() > 1 { 10 } else { 5 }) {
        0 => {
            changed[random.below(image.len())] = random.next_u64() as u8;
            ("sampled bytes of larger images", changed)
        }
        1 => {
            let at = random.below(image.len());
            changed[at] = b" 0123456789\n\r"[random.below(13)];
            ("sampled bytes of larger images", changed)
        }
        2 => {
            changed.truncate(random.below(image.len()));
            ("sampled cuts of larger images", changed)
        }
        3 => {
            let (from, to) = (random.below(count), random.below(count));
            changed[LINE * to..][..LINE].copy_from_slice(&image[LINE * from..][..LINE]);
            changed[LINE * from..][..LINE].copy_from_slice(&image[LINE * to..][..LINE]);
            ("sampled swaps of larger images", changed)
        }
        4 => {
            let index = 1 + random.below(groups);
            let (start, seed) = read_two(&image[LINE * index..][..LINE]).expect("a group line");
            let pairs = other_pairs(start, seed);
            let (start, seed) = pairs[random.below(pairs.len())];
            changed[LINE * index..][..LINE].copy_from_slice(&line_of_two(start, seed));
            ("other numbers in group lines of larger images", changed)
        }
        5 => {
            let (from, to) = (slot(random), slot(random));
            changed.copy_within(from..from + LINE, to);
            ("doubled tags in larger images", changed)
        }
        6 => {
            let at = slot(random);
            changed[at..at + LINE].copy_from_slice(&line_of_tag(random.tag()));
            ("foreign tags in larger images", changed)
        }
        7 => {
            for _ in 0..random.within(1, 3) {
                let at = slot(random);
                changed[at..at + LINE].copy_from_slice(UNWIRED);
            }
            ("tag 0 in slots of larger images", changed)
        }
        8 => {
            // With another fault, in a line or in a group: 12 before 17, 17 before 13 and 14.
            let (group_line, other, at) = (1 + random.below(groups), slot(random), slot(random));
            match random.below(3) {
                0 => changed[LINE * (1 + random.below(count - 1)) + 9] = b' ',
                1 => changed[LINE * group_line..][..LINE].copy_from_slice(&line_of_two(99_999, 0)),
                _ => changed[other..][..LINE].copy_from_slice(&line_of_tag(random.tag())),
            }
            changed[at..][..LINE].copy_from_slice(UNWIRED);
            ("tag 0 and another fault in larger images", changed)
        }
        _ => {
            // The next slot's tag: often of the same group, so that 15 comes too.
            let index = 1 + groups + random.below(case.tags.len() - 1);
            let near = (1 + random.below(4)).min(count - 1 - index);
            let (from, to) = if random.below(2) == 0 {
                (0, near)
            } else {
                (near, 0)
            };
            changed.copy_within(
                LINE * (index + from)..LINE * (index + from + 1),
                LINE * (index + to),
            );
            ("doubled tags in larger images", changed)
        }
    }
}
