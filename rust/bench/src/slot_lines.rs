//! The slot lines that a hit reads, and what that costs: in the image as it is written, with the fewest
//! second places, and in the image of the order before, in which the lowest tag alone decided.

use crate::cases::{self, Case};
use crate::tables::{image_of, time_lookups};
use crate::timing::{measure, median, time, Timed, REPETITIONS};
use crate::versions::{BOTH, PROVED};
use model::hash::place_of;
use model::image::{image_length, Image};
use model::line::line_of_tag;
use random::Random;
use std::hint::black_box;

/// Prints the table: the random lists of 512 and of 128 groups.
pub fn print() {
    println!("\nSlot lines read by a hit, mean over all tags, and the time of a proved lookup, hits in random order: before, when the lowest tag alone decided between filling sequences, and now that the fewest second places do; medians of {REPETITIONS} repetitions, the two in turn, and the median of the ratios");
    println!(
        "  {:<44}{:>10}{:>10}{:>12}{:>12}  ratio",
        "", "lines", "lines now", "lookup", "lookup now"
    );
    let mut random = Random::new(3);
    for case in cases::built() {
        let hits = case.shuffled(&mut random);
        if ["512-random", "128-random"].contains(&case.name) {
            row(&case, &hits);
        }
    }
}

fn row(case: &Case, hits: &[u32]) {
    let now = image_of(case);
    let before = by_the_order_before(&now);
    let images = [&before[..], &now];
    let [lines, lines_now] = images.map(|image| mean_lines(case, image));
    let numbers =
        images.map(|image| -> Vec<u64> { hits.iter().map(|&tag| number(image, tag)).collect() });
    let versions = images.iter().zip(&numbers).zip(["before", "now"]);
    let samples = measure(
        hits.len(),
        versions
            .map(|((&image, expected), name)| Timed {
                name,
                run: Box::new(move |iterations| {
                    time_lookups(hits, expected, iterations, |tag| {
                        (PROVED.lookup)(black_box(image), tag)
                    })
                }),
            })
            .collect(),
    );
    println!(
        "  {:<44}{lines:>10.3}{lines_now:>10.3}{:>12}{:>12}  {:.2}",
        case.title,
        time(samples[0].median()),
        time(samples[1].median()),
        median(&samples[1].ratios(&samples[0]))
    );
}

/// The slot that holds a listed tag, as all versions of lookup say.
fn number(image: &[u8], tag: u32) -> u64 {
    let number = model::answer_lookup(image, tag);
    assert_eq!(read(image).slot(number as usize), Ok(tag));
    for version in BOTH {
        assert_eq!((version.lookup)(image, tag), number);
    }
    number
}

fn read(image: &[u8]) -> Image<'_> {
    Image::open(image).expect("it is an image")
}

/// How many slot lines a hit reads in a checked image, in the mean over the list: one if the tag stands
/// at its first place, and the line there and the one of its second place otherwise.
fn mean_lines(case: &Case, bytes: &[u8]) -> f64 {
    for version in BOTH {
        assert_eq!((version.check)(bytes), 0);
    }
    assert_eq!(model::answer_check(bytes), 0);
    let mut tags = Vec::new();
    let mut lines = 0;
    for group in groups(bytes) {
        for (slot, &tag) in group.tags.iter().enumerate() {
            lines += 1 + usize::from(slot != group.places(tag)[0]);
        }
        tags.extend(group.tags);
    }
    tags.sort_unstable();
    assert_eq!(tags, case.tags);
    lines as f64 / tags.len() as f64
}

/// A group as an image has it.
struct Group {
    start: usize,
    seed: u32,
    /// The tag in each slot.
    tags: Vec<u32>,
}

impl Group {
    fn places(&self, tag: u32) -> [usize; 2] {
        [0, 1].map(|choice| place_of(self.tags.len() as u32, self.seed, choice, tag) as usize)
    }
}

/// The groups of an image that is in order.
fn groups(bytes: &[u8]) -> Vec<Group> {
    let image = read(bytes);
    let line = |group| image.group_line(group).expect("a group line");
    let end = |group| match group + 1 < image.groups {
        true => line(group + 1).start,
        false => image.tags,
    };
    let slot = |slot| image.slot(slot).expect("a slot line");
    (0..image.groups)
        .map(|group| Group {
            start: line(group).start,
            seed: line(group).seed,
            tags: (line(group).start..end(group)).map(slot).collect(),
        })
        .collect()
}

/// The image of the same list and seeds by the order before document 02, §6: of the sequences that fill a
/// group the least, compared from the lowest tag on, 0 before 1. It is needed for this table alone.
///
/// From the lowest on, each tag takes its first place if those that are displaced, one by the other, end
/// at the slot that it leaves, and none of them is lower.
fn by_the_order_before(bytes: &[u8]) -> Vec<u8> {
    let image = read(bytes);
    let mut changed = bytes.to_vec();
    for mut group in groups(bytes) {
        let mut ascending = group.tags.clone();
        ascending.sort_unstable();
        for tag in ascending {
            if let Some(slots) = cycle_of(&group, tag) {
                let moved: Vec<u32> = slots.iter().map(|&slot| group.tags[slot]).collect();
                // Each takes the slot of the next, and the last one that of the first.
                for (at, &tag) in moved.iter().enumerate() {
                    group.tags[slots[(at + 1) % slots.len()]] = tag;
                }
            }
        }
        for (place, &tag) in group.tags.iter().enumerate() {
            let at = image_length(image.groups, group.start + place);
            changed[at..at + 11].copy_from_slice(&line_of_tag(tag));
        }
    }
    changed
}

/// The slots of the tags that move if this one, which stands at its second place, takes its first: its
/// own, and each that the tag in the one before moves to. Nothing if they do not end at its own slot, if
/// a lower tag is among them, or if it stands at its first place.
fn cycle_of(group: &Group, tag: u32) -> Option<Vec<usize>> {
    let own = group.tags.iter().position(|&other| other == tag)?;
    let other_place = |slot: usize| {
        let [first, second] = group.places(group.tags[slot]);
        if slot == first {
            second
        } else {
            first
        }
    };
    if own == group.places(tag)[0] {
        return None;
    }
    let mut slots = vec![own];
    let mut slot = other_place(own);
    while slot != own {
        if group.tags[slot] < tag || slots.len() > group.tags.len() {
            return None;
        }
        slots.push(slot);
        slot = other_place(slot);
    }
    Some(slots)
}

#[cfg(test)]
mod tests {
    use super::{by_the_order_before, groups, mean_lines};
    use crate::cases::Case;
    use model::image_of;
    use random::Random;

    fn case(groups: u32, tags: Vec<u32>) -> Case {
        Case {
            name: "",
            title: "",
            groups,
            tags,
        }
    }

    #[test]
    fn the_lowest_tag_alone_decided_for_two_second_places_and_the_fewest_are_one() {
        // Under seed 0 the words 1 and 6 fill them.
        let case = case(1, vec![1, 2, 12]);
        let now = image_of(&case.tags, 1, 1).unwrap();
        let before = by_the_order_before(&now);
        assert_eq!(mean_lines(&case, &now), 4.0 / 3.0);
        assert_eq!(mean_lines(&case, &before), 5.0 / 3.0);
        assert_eq!(
            before,
            b"    3    1\n    0    0\n        12\n         1\n         2\n"
        );
    }

    /// The least sequence that fills a group, compared from the lowest tag on, by trying all.
    fn least(tags: &[u32], seed: u32) -> Vec<u32> {
        let n = tags.len();
        let place = |index: usize, rank: usize| {
            let choice = (rank >> (n - 1 - index) & 1) as u32;
            model::hash::place_of(n as u32, seed, choice, tags[index]) as usize
        };
        (0..1 << n)
            .find_map(|rank| {
                let mut slots = vec![0; n];
                for (index, &tag) in tags.iter().enumerate() {
                    slots[place(index, rank)] = tag;
                }
                (!slots.contains(&0)).then_some(slots)
            })
            .expect("the seed serves")
    }

    #[test]
    fn the_order_before_is_the_least_sequence_from_the_lowest_tag_on() {
        let mut random = Random::new(9);
        let mut unlike = 0;
        for _ in 0..300 {
            let case = case(4, random.tags(28));
            let Ok(now) = image_of(&case.tags, 4, 65_536) else {
                continue;
            };
            let before = by_the_order_before(&now);
            assert!(mean_lines(&case, &now) <= mean_lines(&case, &before));
            unlike += u32::from(now != before);
            for group in groups(&before) {
                let mut tags = group.tags.clone();
                tags.sort_unstable();
                assert_eq!(group.tags, least(&tags, group.seed));
            }
        }
        assert!(unlike > 50, "{unlike}");
    }
}
