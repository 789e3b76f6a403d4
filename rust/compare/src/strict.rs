//! Images edited in every way, for the strict check (document 02, §7): by bytes, by other seeds and
//! sequences that checking accepts as well, by tags moved and replaced, and by several of these at once.

use model::hash::{group_of, place_of};
use model::image::Image;
use model::line::{line_of_tag, line_of_two, LINE};
use model::placing::{serves, word_taken, LARGEST_GROUP};
use random::Random;

use crate::groups::{
    filled_under, ALL_KINDS_OF_BITS, CLOSE_25, CLOSE_32, FEWEST_SECOND_PLACES, LAST_SEED, LOLLIPOP,
    PATH, PATH_TO_BE_MOVED_ALONG,
};
use crate::images::other_pairs;
use crate::lists::{different, full, large, tag_of_group, tags_of_group, Case};
use crate::tally::choices::for_each_cycle;
use crate::tally::strict::BEFORE_19;
use crate::tally::{Operation, Tally};
use crate::Size;

pub fn compare(tally: &mut Tally, random: &mut Random, size: &Size) {
    for case in small_cases(random) {
        each_byte(tally, &image_of(&case), size);
    }
    every_seed(tally, size);
    every_standing(tally, random, size);
    for _ in 0..size.edits {
        few_groups(tally, random);
    }
    chosen(tally, random);
    for _ in 0..size.large_edits {
        many_groups(tally, random);
        large_groups(tally, random);
    }
}

fn image_of(case: &Case) -> Vec<u8> {
    model::image_of(&case.tags, case.groups, case.limit).expect("the case has an image")
}

/// What building writes is accepted.
fn built(tally: &mut Tally, kind: &'static str, image: &[u8]) {
    tally.kind(kind);
    assert_eq!(tally.strict_check(image), 0);
}

/// Checks an image strictly if it is another one than before it was edited.
fn examine(tally: &mut Tally, before: &[u8], image: &[u8]) {
    if image != before {
        tally.edited(image);
    }
}

/// The answer for a group that is not as built.
fn not_as_built(group: usize) -> u64 {
    (19 << 32) + group as u64
}

/// An image taken apart: the seed of each group, and the tags in its slots.
#[derive(Clone)]
struct Groups(Vec<(u32, Vec<u32>)>);

impl Groups {
    /// The groups of an image that checking accepts.
    fn of(image: &[u8]) -> Groups {
        let image = Image::open(image).expect("it has a line 0");
        let lines: Vec<_> = (0..image.groups)
            .map(|group| image.group_line(group).expect("it has group lines"))
            .collect();
        let part = |group: usize| {
            let end = lines.get(group + 1).map_or(image.tags, |next| next.start);
            (lines[group].start..end)
                .map(|slot| image.slot(slot).expect("it has slot lines"))
                .collect()
        };
        let groups = (0..image.groups).map(|group| (lines[group].seed, part(group)));
        Groups(groups.collect())
    }

    fn image(&self) -> Vec<u8> {
        let count: usize = self.0.iter().map(|(_, slots)| slots.len()).sum();
        let mut image = line_of_two(count as u64, self.0.len() as u64);
        let mut start = 0;
        for (seed, slots) in &self.0 {
            image.extend(line_of_two(start, u64::from(*seed)));
            start += slots.len() as u64;
        }
        for &tag in self.0.iter().flat_map(|(_, slots)| slots) {
            image.extend(line_of_tag(tag));
        }
        image
    }

    /// The number of slots in lower groups.
    fn start(&self, group: usize) -> usize {
        self.0[..group].iter().map(|(_, slots)| slots.len()).sum()
    }

    /// The tags of a group, ascending.
    fn tags(&self, group: usize) -> Vec<u32> {
        let mut tags = self.0[group].1.clone();
        tags.sort_unstable();
        tags
    }

    /// Gives a group the slots of a sequence that fills it under the seed.
    fn stand(&mut self, group: usize, seed: u32, word: u32) {
        let tags = self.tags(group);
        let n = tags.len() as u32;
        let (stated, slots) = &mut self.0[group];
        *stated = seed;
        for (index, &tag) in tags.iter().enumerate() {
            slots[place_of(n, seed, word >> index & 1, tag) as usize] = tag;
        }
    }

    /// Another seed that serves the group too, the first from `from` on, with the sequence that writing
    /// takes under it.
    fn restate(&mut self, group: usize, from: u32) -> bool {
        let tags = self.tags(group);
        let own = self.0[group].0;
        let Some(seed) = (from..65_536)
            .chain(0..from)
            .find(|&seed| seed != own && serves(&tags, seed))
        else {
            return false;
        };
        let word = word_taken(&tags, seed).expect("the seed serves");
        self.stand(group, seed, word);
        true
    }

    /// Another sequence under the same seed, if there is one: some cycles turned round, but not those of
    /// one tag, whose two places are equal.
    fn turn(&mut self, group: usize, random: &mut Random) -> bool {
        let (tags, seed) = (self.tags(group), self.0[group].0);
        let Some(word) = word_taken(&tags, seed) else {
            return false;
        };
        let mut cycles = Vec::new();
        for_each_cycle(&tags, seed, word, |cycle| {
            if cycle.count_ones() > 1 {
                cycles.push(cycle);
            }
        });
        if cycles.is_empty() {
            return false;
        }
        let always = random.below(cycles.len());
        let mut turned = word;
        for (index, cycle) in cycles.into_iter().enumerate() {
            if index == always || random.below(4) == 0 {
                turned ^= cycle;
            }
        }
        self.stand(group, seed, turned);
        true
    }
}

/// Images of at most 20 lines: no tags, empty groups first, last and between, one group, tags with two
/// equal places, and groups of up to eleven tags.
fn small_cases(random: &mut Random) -> Vec<Case> {
    let mut cases = vec![
        Case::new(2, 9, [1, 2, 3]),
        Case::new(1, 1, []),
        Case::new(4, 99, []),
        Case::new(1, 1, [13]),
        Case::new(1, 9, [1, 3]),
        Case::new(1, 99, [1, 1 << 31, u32::MAX]),
        // Both places of each tag are equal.
        Case::new(1, 1, [13, 1 << 31]),
        Case::new(1, 9, [14, 337_764_173, 964_266_638, 2_787_973_142]),
        Case::new(5, 99, tags_of_groups(&[0, 2, 0, 3, 0])),
        Case::new(4, 99, tags_of_groups(&[1, 0, 0, 2])),
        Case::new(3, 9_999, tags_of_groups(&[4, 1, 6])),
    ];
    for (groups, count) in [(2, 9), (6, 9), (1, 11), (12, 7)] {
        let case = (0..)
            .map(|_| Case::new(groups, 65_536, different(count, || random.tag())))
            .find(|case| model::image_of(&case.tags, groups, 65_536).is_ok());
        cases.extend(case);
    }
    cases
}

/// The first tags of each group, as many as are named, in one list.
fn tags_of_groups(sizes: &[usize]) -> Vec<u32> {
    let groups = sizes.len() as u32;
    let mut tags: Vec<u32> = (0..groups)
        .zip(sizes)
        .flat_map(|(group, &size)| tags_of_group(group, groups, size))
        .collect();
    tags.sort_unstable();
    tags
}

/// Every byte with all other values, every cut, lines and bytes behind, and every line by every other.
fn each_byte(tally: &mut Tally, image: &[u8], size: &Size) {
    built(tally, "built images", image);

    tally.kind("each byte of a built image set to all other values");
    let mut changed = image.to_vec();
    for at in 0..image.len() {
        for step in (1..256).step_by(size.byte_step) {
            changed[at] = image[at].wrapping_add(step as u8);
            tally.edited(&changed);
        }
        changed[at] = image[at];
    }
    tally.kind("built images cut and extended");
    for length in 0..image.len() {
        tally.edited(&image[..length]);
    }
    for more in [&b"\n"[..], b" ", b"         7\n", b"    0    0\n"] {
        tally.edited(&[image, more].concat());
    }
    tally.kind("lines of built images exchanged and doubled");
    let count = image.len() / LINE;
    for first in 0..count {
        for second in 0..count {
            let mut changed = image.to_vec();
            changed.copy_within(LINE * first..LINE * (first + 1), LINE * second);
            examine(tally, image, &changed);
            changed[LINE * first..][..LINE].copy_from_slice(&image[LINE * second..][..LINE]);
            examine(tally, image, &changed);
        }
    }
}

/// Every seed there is for groups of 0, 1, 2 and 3 tags, with the slots that writing gives them where the
/// seed serves, and as they were where it does not; alone, and as the last of two groups.
fn every_seed(tally: &mut Tally, size: &Size) {
    let whole = Groups(vec![(0, vec![2]), (1, vec![1, 3])]);
    let three = image_of(&Case::new(1, 99, [6, 8, 33]));
    for (groups, group) in [
        (Groups(vec![(0, vec![])]), 0),
        (Groups(vec![(0, vec![7])]), 0),
        (whole.clone(), 1),
        (Groups::of(&three), 0),
    ] {
        let before = groups.image();
        built(tally, "built images", &before);
        tally.kind("every seed stated");
        let tags = groups.tags(group);
        let mut edited = groups.clone();
        for seed in (0..65_536).step_by(size.seed_step) {
            match word_taken(&tags, seed) {
                Some(word) => edited.stand(group, seed, word),
                None => edited.0[group].0 = seed,
            }
            examine(tally, &before, &edited.image());
        }
    }
}

/// Every way to stand under the first seeds, for small groups, but building's.
fn every_standing(tally: &mut Tally, random: &mut Random, size: &Size) {
    for n in 1..=6 {
        for _ in 0..size.edits.div_ceil(130) {
            let tags = different(n, || tag_of_group(random, 1, 2));
            let own = image_of(&Case::new(2, 65_536, tags.clone()));
            built(tally, "built images", &own);
            tally.kind("every standing under the first seeds");
            let mut groups = Groups::of(&own);
            for seed in 0..32 {
                let fills = |word: u32| {
                    let places = (0..n)
                        .map(|index| 1 << place_of(n as u32, seed, word >> index & 1, tags[index]));
                    places.fold(0u32, |taken, place| taken | place).count_ones() as usize == n
                };
                for word in (0..1 << n).filter(|&word| fills(word)) {
                    groups.stand(1, seed, word);
                    examine(tally, &own, &groups.image());
                }
            }
        }
    }
}

/// Small lists in few groups, built with a large L and with the least that suffices, and edited.
fn few_groups(tally: &mut Tally, random: &mut Random) {
    let count = random.within(1, 9);
    let most = random.within(0, 5 * count);
    let tags = match random.below(4) {
        0 => {
            let first = 1 + random.below(1_000) as u32;
            (first..first + most as u32).collect()
        }
        _ => different(most, || random.tag()),
    };
    let case = Case::new(count as u32, 65_536, tags);
    let Ok(image) = model::image_of(&case.tags, case.groups, 65_536) else {
        return;
    };
    built(tally, "built images", &image);
    let groups = Groups::of(&image);
    let least = 1 + groups.0.iter().map(|&(seed, _)| seed).max().unwrap_or(0);
    let tight = image_of(&Case::new(case.groups, least, case.tags));
    built(tally, "images built with the least L", &tight);
    for _ in 0..190 {
        edit(tally, random, &groups);
    }
    for _ in 0..4 {
        due_at_once(tally, random, &groups);
    }
}

/// One edit or several of one image.
fn edit(tally: &mut Tally, random: &mut Random, groups: &Groups) {
    let mut edited = groups.clone();
    let several = random.below(4) == 0;
    let kind = edit_once(random, &mut edited);
    if several {
        edit_once(random, &mut edited);
    }
    tally.kind(if several {
        "several edits at once"
    } else {
        kind
    });
    let mut image = edited.image();
    if random.below(12) == 0 {
        tally.kind("bytes of edited images");
        any_byte(random, &mut image);
    }
    examine(tally, &groups.image(), &image);
}

/// Changes one byte, mostly to one that a line may have.
fn any_byte(random: &mut Random, image: &mut [u8]) {
    let at = random.below(image.len());
    image[at] = match random.below(8) {
        0 => random.next_u64() as u8,
        _ => b" 0123456789\n"[random.below(12)],
    };
}

/// Edits an image of groups that stand under their seeds. What it does may leave the image as it was, or
/// make it the image of another list.
fn edit_once(random: &mut Random, edited: &mut Groups) -> &'static str {
    let count = edited.0.len();
    let group = match random.below(4) {
        0 => 0,
        1 => count - 1,
        _ => random.below(count),
    };
    let size = edited.0[group].1.len();
    match random.below(9) {
        0 => {
            let from = random.below(300) as u32;
            edited.restate(group, from);
            "another seed that serves"
        }
        1 => {
            edited.turn(group, random);
            "another sequence under the same seed"
        }
        2 => {
            let other = random.below(count);
            let (slots, others) = (edited.0[group].1.clone(), edited.0[other].1.clone());
            edited.0[group].1 = others;
            edited.0[other].1 = slots;
            if random.below(2) == 0 {
                let (seed, other_seed) = (edited.0[group].0, edited.0[other].0);
                edited.0[group].0 = other_seed;
                edited.0[other].0 = seed;
            }
            "groups exchanged"
        }
        3 => {
            let other = random.below(count);
            if size > 0 && !edited.0[other].1.is_empty() {
                let (at, to) = (random.below(size), random.below(edited.0[other].1.len()));
                let tag = edited.0[group].1[at];
                edited.0[group].1[at] = edited.0[other].1[to];
                edited.0[other].1[to] = tag;
            }
            "slots of two groups exchanged"
        }
        4 => {
            if size > 0 {
                let (first, second) = (random.below(size), random.below(size));
                edited.0[group].1.swap(first, second);
            }
            "slots of one group exchanged"
        }
        5 | 6 => {
            replace(random, edited, group);
            "a tag replaced by one that may stand there"
        }
        7 => {
            let seed = [0, 1, 2, 9, 255, 65_535, random.below(65_536) as u32];
            edited.0[group].0 = seed[random.below(seed.len())];
            "another seed stated"
        }
        _ => {
            match random.below(3) {
                0 => edited.0[group].1.sort_unstable(),
                1 => edited.0[group].1.reverse(),
                _ => edited.0[group].1.rotate_left(size.min(1)),
            }
            "slots of a group sorted, turned round or moved on"
        }
    }
}

/// Replaces a tag by another one of its group that may stand in its slot. Often the image is then that of
/// the other list.
fn replace(random: &mut Random, edited: &mut Groups, group: usize) {
    let count = edited.0.len() as u32;
    let (seed, slots) = &mut edited.0[group];
    if slots.is_empty() {
        return;
    }
    let (n, at) = (slots.len() as u32, random.below(slots.len()));
    let near = slots[at];
    let stands = |tag: u32| {
        group_of(tag, count) as usize == group
            && (0..2).any(|choice| place_of(n, *seed, choice, tag) as usize == at)
    };
    let found = (0..4_000).find_map(|_| {
        // Far off, or a neighbour that has the same digits but the last ones.
        let tag = match random.below(3) {
            0 => near.wrapping_add(random.below(99) as u32),
            _ => random.tag(),
        };
        (tag != 0 && stands(tag) && !slots.contains(&tag)).then_some(tag)
    });
    if let Some(tag) = found {
        slots[at] = tag;
    }
}

/// An image in which 19 is due at one group, and each refusal of checking besides, at another group and
/// before it or behind.
fn due_at_once(tally: &mut Tally, random: &mut Random, groups: &Groups) {
    let count = groups.0.len();
    if count < 4 {
        return;
    }
    let mut edited = groups.clone();
    let own = random.below(count);
    if !edited.restate(own, random.below(99) as u32) {
        return;
    }
    let image = edited.image();
    tally.kind("edited images before they are damaged");
    assert_eq!(tally.edited(&image), not_as_built(own));
    tally.kind("a refusal of checking and 19 due at once");
    let slot_line = |group: usize, slot: usize| 1 + count + edited.start(group) + slot;
    for number in BEFORE_19 {
        let mut damaged = image.clone();
        let mut put = |line: usize, bytes: &[u8]| {
            damaged[LINE * line..LINE * (line + 1)].copy_from_slice(bytes);
        };
        // A group that has tags, and neither it nor its neighbour is the one that 19 names.
        let others: Vec<usize> = (0..count)
            .filter(|&group| group != own && group != own + 1 && !edited.0[group].1.is_empty())
            .collect();
        if others.is_empty() {
            return;
        }
        let other = others[random.below(others.len())];
        let at = random.below(edited.0[other].1.len());
        match number {
            11 => match random.below(3) {
                0 => damaged.truncate(random.below(11)),
                1 => damaged.truncate(random.within(11, image.len() - 1)),
                _ => damaged.extend(b"         7\n"),
            },
            12 => match random.below(3) {
                0 => put(0, b"    3    0\n"),
                1 => put(1 + other, b"    065536\n"),
                _ => put(slot_line(other, at), b"        02\n"),
            },
            17 => put(slot_line(other, at), b"         0\n"),
            13 => put(1 + other, &line_of_two(99_999, 0)),
            14 => {
                let foreign = tag_of_group(random, own as u32, count as u32);
                put(slot_line(other, at), &line_of_tag(foreign));
            }
            _ => {
                // A tag at both its places.
                let (seed, slots) = &edited.0[other];
                let places = |tag| {
                    [0, 1].map(|choice| place_of(slots.len() as u32, *seed, choice, tag) as usize)
                };
                let Some(&tag) = slots.iter().find(|&&tag| places(tag)[0] != places(tag)[1]) else {
                    continue;
                };
                for place in places(tag) {
                    put(slot_line(other, place), &line_of_tag(tag));
                }
            }
        }
        let answer = tally.edited(&damaged);
        tally.due(Operation::StrictChecking, &[number, 19], answer);
    }
}

/// Chosen groups of 25 and 32 tags, one served by the last seed alone, edited many times.
fn chosen(tally: &mut Tally, random: &mut Random) {
    for tags in [
        &CLOSE_25[..],
        &CLOSE_32,
        &PATH,
        &PATH_TO_BE_MOVED_ALONG,
        &LOLLIPOP,
        &ALL_KINDS_OF_BITS,
        &FEWEST_SECOND_PLACES,
    ] {
        let groups = Groups::of(&image_of(&Case::new(1, 1, tags)));
        full_group(tally, random, &groups, 30);
    }
    let last = image_of(&Case::new(1, 65_536, LAST_SEED));
    built(tally, "the group that the last seed serves", &last);
    let mut edited = Groups::of(&last);
    if edited.turn(0, random) {
        assert_eq!(tally.edited(&edited.image()), not_as_built(0));
    }
}

/// One group of many tags: other sequences under its seed, other seeds, tags replaced and exchanged.
fn full_group(tally: &mut Tally, random: &mut Random, groups: &Groups, edits: usize) {
    let before = groups.image();
    built(tally, "built images of full groups", &before);
    let mut edited = groups.clone();
    if edited.restate(0, random.below(60_000) as u32) {
        tally.kind("another seed that serves a full group");
        assert_eq!(tally.edited(&edited.image()), not_as_built(0));
    }
    for _ in 0..edits {
        let mut edited = groups.clone();
        if edited.turn(0, random) {
            tally.kind("another sequence in a full group");
            assert_eq!(tally.edited(&edited.image()), not_as_built(0));
        }
        let n = groups.0[0].1.len();
        let (first, second) = (random.below(n), random.below(n));
        let mut edited = groups.clone();
        edited.0[0].1.swap(first, second);
        tally.kind("slots exchanged in a full group");
        examine(tally, &before, &edited.image());
        let mut edited = groups.clone();
        replace(random, &mut edited, 0);
        tally.kind("a tag replaced in a full group");
        examine(tally, &before, &edited.image());
    }
}

/// Images of 400 to 512 groups and up to 4,096 tags, and of 512 groups with 200 tags.
fn many_groups(tally: &mut Tally, random: &mut Random) {
    let case = large(random);
    let image = image_of(&case);
    built(tally, "built images of many groups", &image);
    let groups = Groups::of(&image);
    for _ in 0..12 {
        edit(tally, random, &groups);
        due_at_once(tally, random, &groups);
    }
    tally.kind("bytes of images of many groups");
    for _ in 0..200 {
        let mut changed = image.clone();
        any_byte(random, &mut changed);
        examine(tally, &image, &changed);
    }
    // Each group in turn, from the last to the first: every lower one is named instead.
    let tags = different(200, || random.tag());
    let own = Groups::of(&image_of(&Case::new(512, 65_536, tags.clone())));
    let mut edited = own.clone();
    tally.kind("one group after the other edited, from the last to the first");
    for group in (0..512).rev() {
        if edited.restate(group, 1) {
            assert_eq!(tally.edited(&edited.image()), not_as_built(group));
        }
        let mut alone = own.clone();
        if alone.restate(group, 5) {
            assert_eq!(tally.edited(&alone.image()), not_as_built(group));
        }
    }
    // The same by writing under another plan, with a seed for an empty group among them.
    tally.kind("images written under other seeds that serve");
    let text = Case::new(512, 1, tags).text();
    for _ in 0..40 {
        let mut other = own.clone();
        let changed: Vec<usize> = (0..random.within(1, 3))
            .map(|_| random.below(512))
            .collect();
        for &group in &changed {
            other.restate(group, random.within(1, 99) as u32);
        }
        let lowest = (0..512).find(|&group| other.0[group].0 != own.0[group].0);
        let mut plan = [0; 513];
        plan[0] = 512;
        for (cell, (seed, _)) in plan[1..].iter_mut().zip(&other.0) {
            *cell = *seed;
        }
        let mut image = vec![0; other.image().len()];
        assert_eq!(
            tag_index::raw::write(&text, &plan, &mut image),
            image.len() as u64
        );
        assert_eq!(image, other.image());
        if let Some(group) = lowest {
            assert_eq!(tally.edited(&image), not_as_built(group));
        }
    }
}

/// Groups of 18 to 32 tags, several and alone; of 31 and 32 tags, which fill under a low seed.
fn large_groups(tally: &mut Tally, random: &mut Random) {
    let case = full(random);
    if let Ok(image) = model::image_of(&case.tags, case.groups, case.limit) {
        let groups = Groups::of(&image);
        for _ in 0..12 {
            edit(tally, random, &groups);
            due_at_once(tally, random, &groups);
        }
        tally.kind("other numbers in group lines of full groups");
        for line in 1..=case.groups as usize {
            let (seed, _) = groups.0[line - 1];
            for (start, seed) in other_pairs(groups.start(line - 1) as u32, seed) {
                let mut changed = image.clone();
                changed[LINE * line..][..LINE].copy_from_slice(&line_of_two(start, seed));
                examine(tally, &image, &changed);
            }
        }
    }
    for n in [31, LARGEST_GROUP] {
        for seed in [0, 1, 2] {
            let tags = filled_under(random, n, seed);
            let groups = Groups::of(&image_of(&Case::new(1, 65_536, tags)));
            full_group(tally, random, &groups, 12);
        }
    }
}
