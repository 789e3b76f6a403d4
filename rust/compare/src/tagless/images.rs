//! Images without tags, whole, damaged and made by hand: checking, and lookups of listed tags and of
//! strangers.

use model::hash::group_of;
use model::line::{figure, line_of_two, LINE};
use model::tagless::image::{GroupLine, GROUP_LINE};
use model::tagless::{image_of, tagless_length};
use random::Random;

use crate::images::other_pairs;
use crate::lists::{absent_tags, different, full, large, structured, Case};
use crate::tally::Tally;
use crate::texts::{HEADERS, LINES};
use crate::Size;

use super::examine;

pub fn compare(tally: &mut Tally, random: &mut Random, size: &Size) {
    let cases = small_cases(random);
    for case in &cases[..(2 * size.small_images).min(cases.len())] {
        let image = whole(case);
        let tags = asked(random, case, 5);
        bytes(tally, &image, &tags, size);
        lines(tally, &image, &tags);
        fields(tally, &image, &tags);
    }
    by_hand(tally, random);
    for _ in 0..size.full_images {
        any_numbers(tally, random);
        let case = full(random);
        if let Ok(image) = image_of(&case.tags, case.groups, 2_000) {
            sampled(tally, random, &case, &image, 12);
            moved_starts(tally, random, &case, &image);
        }
    }
    for _ in 0..size.many_groups {
        for (_, case) in structured(random) {
            if let Ok(image) = image_of(&case.tags, case.groups, case.limit) {
                sampled(tally, random, &case, &image, 12);
            }
        }
    }
    for _ in 0..size.large_images {
        let case = large(random);
        sampled(tally, random, &case, &whole(&case), size.large_samples);
    }
}

fn whole(case: &Case) -> Vec<u8> {
    image_of(&case.tags, case.groups, case.limit).expect("the case has an image")
}

/// Images of at most five groups, full and empty ones; and one of nine.
fn small_cases(random: &mut Random) -> Vec<Case> {
    let mut cases = vec![
        Case::new(2, 9, [1, 2, 3]),
        Case::new(1, 1, []),
        Case::new(1, 99, [1, 1 << 31, u32::MAX]),
        Case::new(3, 99, [5, 70_001]),
    ];
    for (groups, count) in [(1, 32), (2, 40), (5, 60), (9, 20)] {
        loop {
            let case = Case::new(groups, 65_536, different(count, || random.tag()));
            if image_of(&case.tags, case.groups, case.limit).is_ok() {
                cases.push(case);
                break;
            }
        }
    }
    cases
}

/// Tags to look up: at most so many that are listed, and some that are not.
fn asked(random: &mut Random, case: &Case, most: usize) -> Vec<u32> {
    let mut tags: Vec<u32> = absent_tags(random, case).into_iter().take(most).collect();
    let step = case.tags.len() / most + 1;
    tags.extend(case.tags.iter().step_by(step));
    tags
}

fn look(tally: &mut Tally, image: &[u8], tags: &[u32]) {
    examine(tally, image, tags.iter().copied());
}

/// Every byte with all other values, every cut, and bytes lost, added, moved and behind.
fn bytes(tally: &mut Tally, image: &[u8], tags: &[u32], size: &Size) {
    tally.kind("whole small images");
    look(tally, image, tags);
    tally.kind("each byte of an image set to all other values");
    let mut changed = image.to_vec();
    for at in 0..image.len() {
        for step in (1..256).step_by(size.byte_step) {
            changed[at] = image[at].wrapping_add(step as u8);
            look(tally, &changed, tags);
        }
        changed[at] = image[at];
    }
    tally.kind("every cut of an image");
    for length in 0..image.len() {
        look(tally, &image[..length], tags);
    }
    tally.kind("images with bytes lost, added or moved");
    for at in 0..image.len() {
        let lost = [&image[..at], &image[at + 1..]].concat();
        look(tally, &lost, tags);
        look(tally, &[&lost[..], b"\n"].concat(), tags);
        let mut moved = image.to_vec();
        moved[at..].rotate_left(1);
        look(tally, &moved, tags);
        let added = [&image[..at], b" ", &image[at..]].concat();
        look(tally, &added, tags);
        look(tally, &added[..image.len()], tags);
    }
    tally.kind("images with bytes behind");
    for more in [
        &b"\n"[..],
        b" ",
        b"         7\n",
        b"    0    0         0\n",
        b"    0    0\n",
    ] {
        look(tally, &[image, more].concat(), tags);
    }
}

/// Where a group line stands.
fn at(group: usize) -> std::ops::Range<usize> {
    tagless_length(group)..tagless_length(group + 1)
}

/// Whole lines: swapped, put in each other's place, lost, added, and line 0 replaced by others.
fn lines(tally: &mut Tally, image: &[u8], tags: &[u32]) {
    let groups = (image.len() - LINE) / GROUP_LINE;
    for first in 0..groups {
        for second in first + 1..groups {
            tally.kind("swapped lines");
            let mut changed = image.to_vec();
            changed[at(first)].copy_from_slice(&image[at(second)]);
            changed[at(second)].copy_from_slice(&image[at(first)]);
            look(tally, &changed, tags);
            tally.kind("doubled lines");
            for (from, to) in [(first, second), (second, first)] {
                let mut changed = image.to_vec();
                changed.copy_within(at(from), at(to).start);
                look(tally, &changed, tags);
            }
        }
        tally.kind("lost and added lines");
        let rest = &image[at(first).end..];
        look(tally, &[&image[..at(first).start], rest].concat(), tags);
        let twice = [&image[..at(first).end], &image[at(first).start..]].concat();
        look(tally, &twice, tags);
    }
    tally.kind("foreign first lines");
    for line in HEADERS.iter().chain(&LINES) {
        look(tally, &[&line[..], &image[LINE..]].concat(), tags);
    }
    // B that the length fits, and one that it does not; N of every kind.
    tally.kind("other numbers in line 0");
    let (count, groups) = model::line::read_two(&image[..LINE]).expect("it is whole");
    for (count, groups) in other_pairs(count, groups) {
        let line = line_of_two(count, groups);
        look(tally, &[&line[..], &image[LINE..]].concat(), tags);
        let lines = (0..groups.min(600)).flat_map(|_| b"    0    0         0\n");
        let fits: Vec<u8> = line.iter().chain(lines).copied().collect();
        look(tally, &fits, tags);
    }
}

/// Words, first of all 4,294,967,296 and above.
const WORDS: [u64; 12] = [
    0,
    1,
    2,
    0x5555_5555,
    (1 << 31) - 1,
    1 << 31,
    (1 << 32) - 2,
    (1 << 32) - 1,
    1 << 32,
    (1 << 32) + 1,
    1 << 33,
    9_999_999_999,
];

/// The fields of each group line: other starts and seeds, other words, and fields that are no figures.
fn fields(tally: &mut Tally, image: &[u8], tags: &[u32]) {
    let groups = (image.len() - LINE) / GROUP_LINE;
    for group in 0..groups {
        let line = GroupLine::read(&image[at(group)]).expect("it is whole");
        let mut put = |kind, from: usize, bytes: &[u8]| {
            tally.kind(kind);
            let mut changed = image.to_vec();
            let start = at(group).start + from;
            changed[start..start + bytes.len()].copy_from_slice(bytes);
            look(tally, &changed, tags);
        };
        for (start, seed) in other_pairs(line.start as u32, line.seed) {
            let pair = [figure(start, 5), figure(seed, 5)].concat();
            put("other starts and seeds in group lines", 0, &pair);
        }
        let word = u64::from(line.word);
        let near = [word + 1, word.saturating_sub(1), word ^ 1 << 31, word ^ 1];
        for word in WORDS.into_iter().chain(near) {
            put("other words in group lines", 10, &figure(word, 10));
        }
        // The columns of other lines, and what ends them.
        for columns in LINES {
            put("foreign words in group lines", 10, columns);
        }
        for columns in HEADERS.iter().chain(&LINES) {
            put("foreign starts and seeds in group lines", 0, &columns[..10]);
        }
    }
    // Two malformed words: the first line is named by checking, and each by the lookups that meet it.
    tally.kind("two malformed lines");
    for first in 0..groups {
        for second in 0..groups {
            let mut changed = image.to_vec();
            changed[at(first)][10..20].copy_from_slice(b"4294967296");
            changed[at(second)][20] = b'\r';
            look(tally, &changed, tags);
        }
    }
}

/// The image of N, and of starts with any seeds and words.
fn of_starts(random: &mut Random, count: u64, starts: &[usize]) -> Vec<u8> {
    let mut image = line_of_two(count, starts.len() as u64);
    for &start in starts {
        let seed = [0, 1, 65_535, random.below(65_536) as u32][random.below(4)];
        let word = [0, 1, u32::MAX, random.next_u64() as u32][random.below(4)];
        image.extend(GroupLine { start, seed, word }.bytes());
    }
    image
}

/// Images that no building writes: starts that fall, ends past N, groups of 32 and 33, and the same with
/// a malformed line.
fn by_hand(tally: &mut Tally, random: &mut Random) {
    tally.kind("images made by hand");
    let tags: Vec<u32> = [0, 1, 2, 3, 4, 6, 1 << 31, u32::MAX]
        .into_iter()
        .chain((0..8).map(|_| random.tag()))
        .collect();
    for (count, groups) in [
        (0, 1),
        (0, 2),
        (1, 1),
        (32, 1),
        (33, 1),
        (64, 2),
        (65, 2),
        (0, 512),
        (4_096, 512),
        (4_096, 1),
    ] {
        for start in [0, 1, 31, 32, 33, 4_096, 99_999] {
            let mut starts = vec![start; groups];
            starts[0] = 0;
            let image = of_starts(random, count, &starts);
            look(tally, &image, &tags);
        }
    }
    // Ends that lie past N by one and by many, starts that fall, of the first group and of later ones.
    for end in [0, 1, 2, 3, 4, 5, 31, 32, 33, 34, 35, 99_999] {
        for starts in [
            [0, 0, end],
            [0, end, end],
            [0, 1, end],
            [0, end, 1],
            [end, end, 3],
            [1, end, 3],
        ] {
            let image = of_starts(random, 3, &starts);
            look(tally, &image, &tags);
            for group in 0..3 {
                let mut malformed = image.clone();
                malformed[at(group)][19] = b' ';
                look(tally, &malformed, &tags);
            }
        }
    }
}

/// Accepted images of any seeds and any words, so that the lookups have rows of every kind; and with one
/// start moved.
fn any_numbers(tally: &mut Tally, random: &mut Random) {
    tally.kind("any seeds and words");
    for _ in 0..12 {
        let groups = [1, 2, 3, 9, 40][random.below(5)];
        let mut starts = vec![0];
        for _ in 1..groups {
            let size = random.below(33);
            starts.push(starts[starts.len() - 1] + size);
        }
        let count = starts[groups - 1] + random.below(33);
        let tags: Vec<u32> = (0..24).map(|_| random.tag()).chain([0, 1]).collect();
        let image = of_starts(random, count as u64, &starts);
        assert_eq!(tally.tagless_check(&image), 0);
        look(tally, &image, &tags);
        let moved = random.below(groups);
        starts[moved] = (starts[moved] + random.below(70)).saturating_sub(35);
        let image = of_starts(random, count as u64, &starts);
        look(tally, &image, &tags);
    }
}

/// Each start but the first moved, so that the group before it or its own has 31 to 34 tags, or its end
/// lies beyond N.
fn moved_starts(tally: &mut Tally, random: &mut Random, case: &Case, image: &[u8]) {
    tally.kind("starts moved to groups of 31 to 34 tags");
    let groups = case.groups as usize;
    let start = |group: usize| match group < groups {
        true => {
            GroupLine::read(&image[at(group)])
                .expect("it is whole")
                .start
        }
        false => case.tags.len(),
    };
    for group in 1..groups {
        let (before, behind) = (start(group - 1), start(group + 1));
        let mut tags = asked(random, case, 5);
        tags.extend(case.tags.iter().copied().filter(|&tag| {
            let own = group_of(tag, case.groups) as usize;
            (own == group || own + 1 == group) && random.below(4) == 0
        }));
        for size in 31..=34 {
            for moved in [
                before + size,
                behind.saturating_sub(size),
                case.tags.len() + size - 31,
            ] {
                let mut changed = image.to_vec();
                changed[at(group)][..5].copy_from_slice(&figure(moved as u64, 5));
                look(tally, &changed, &tags);
            }
        }
    }
}

/// Faults drawn at random, each in an image of its own; the lookups are of tags that the changed lines
/// concern and of others.
fn sampled(tally: &mut Tally, random: &mut Random, case: &Case, image: &[u8], samples: usize) {
    tally.kind("whole larger images");
    look(tally, image, &asked(random, case, 8));
    for _ in 0..samples {
        let (kind, changed) = fault(random, case, image);
        tally.kind(kind);
        let mut tags = asked(random, case, 5);
        tags.extend(concerned(random, case, image, &changed));
        look(tally, &changed, &tags);
    }
}

/// Tags of the group whose line is the first that was changed, and of the group before it.
fn concerned(random: &mut Random, case: &Case, image: &[u8], changed: &[u8]) -> Vec<u32> {
    let differing = (0..image.len().min(changed.len())).find(|&at| image[at] != changed[at]);
    let Some(group) = differing.and_then(|at| at.checked_sub(LINE)) else {
        return Vec::new();
    };
    let group = group / GROUP_LINE;
    let mut tags = case.tags.clone();
    tags.retain(|&tag| {
        let own = group_of(tag, case.groups) as usize;
        (own == group || own + 1 == group) && random.below(4) == 0
    });
    tags
}

fn fault(random: &mut Random, case: &Case, image: &[u8]) -> (&'static str, Vec<u8>) {
    let mut changed = image.to_vec();
    let groups = case.groups as usize;
    let group = random.below(groups);
    let line = GroupLine::read(&image[at(group)]).expect("it is whole");
    match random.below(7) {
        0 => {
            changed[random.below(image.len())] = random.next_u64() as u8;
            ("sampled bytes of larger images", changed)
        }
        1 => {
            let place = random.below(image.len());
            changed[place] = b" 0123456789\n\r"[random.below(13)];
            ("sampled bytes of larger images", changed)
        }
        2 => {
            changed.truncate(random.below(image.len()));
            ("sampled cuts of larger images", changed)
        }
        3 => {
            let other = random.below(groups);
            changed[at(group)].copy_from_slice(&image[at(other)]);
            changed[at(other)].copy_from_slice(&image[at(group)]);
            ("sampled swaps of larger images", changed)
        }
        4 => {
            let pairs = other_pairs(line.start as u32, line.seed);
            let (start, seed) = pairs[random.below(pairs.len())];
            let pair = [figure(start, 5), figure(seed, 5)].concat();
            changed[at(group)][..10].copy_from_slice(&pair);
            ("other numbers in group lines of larger images", changed)
        }
        5 => {
            let word = match random.below(2) {
                0 => WORDS[random.below(WORDS.len())],
                _ => random.next_u64() % 10_000_000_000,
            };
            changed[at(group)][10..20].copy_from_slice(&figure(word, 10));
            ("other words in group lines of larger images", changed)
        }
        _ => {
            // A word malformed and a start at fault: 12 before 13, whichever line is lower.
            let other = random.below(groups);
            changed[at(other)][..5].copy_from_slice(b"99999");
            changed[at(group)][10..20].copy_from_slice(b"4294967296");
            ("a malformed word and a faulty group", changed)
        }
    }
}
