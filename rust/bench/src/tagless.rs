//! The index without tags: building, checking and lookup, beside plain Rust and beside the image with
//! tags of the same list, in one run; and the sizes of both images and of a hash map.

use crate::cases::{self, Case};
use crate::tables::{image_of, row, time_builds, time_images, time_lookups, Row, CLEARED};
use crate::timing::{measure, median, time, Timed};
use crate::versions::{Version, BOTH, PROVED};
use random::Random;
use std::collections::HashMap;
use std::hint::black_box;
use std::mem::size_of;
use std::time::{Duration, Instant};
use tag_index::tagless::LONGEST_TAGLESS_IMAGE;
use tag_index::LONGEST_IMAGE;

/// The sample of the proved library on the image with tags, behind those of the proved and the plain
/// version without.
const WITH_TAGS: &str = "with tags";

/// These tables alone.
pub fn print() {
    let rows = rows(&cases::planned(), &mut Random::new(3));
    print_beside(&rows);
    print_sizes(&cases::built());
}

pub fn rows(cases: &[Case], random: &mut Random) -> Vec<Row> {
    let mut rows: Vec<Row> = cases.iter().map(build).collect();
    rows.extend(cases.iter().map(check));
    for case in cases {
        rows.push(lookup(case, "hits", &case.shuffled(random)));
        rows.push(lookup(case, "strangers", &case.absent(random)));
    }
    rows
}

/// The rows again, beside the image with tags of the same list.
pub fn print_beside(rows: &[Row]) {
    println!("\nWithout tags beside with tags, both proved: medians, and the median of the ratios");
    println!("  {:<76}{:>10}{:>11}  ratio", "", "without", "with");
    for row in rows {
        let without = &row.samples[0];
        let with = row
            .samples
            .iter()
            .find(|sample| sample.name == WITH_TAGS)
            .expect("every row has it");
        println!(
            "  {:<76}{:>10}{:>11}  {:.2}",
            row.title,
            time(without.median()),
            time(with.median()),
            median(&without.ratios(with))
        );
    }
}

/// The bytes of the image with tags, of the one without, and of a hash map's table.
pub fn print_sizes(cases: &[Case]) {
    println!("\nSizes in bytes");
    println!(
        "  {:<44}{:>10}{:>10}{:>10}",
        "", "with tags", "without", "hash map"
    );
    for case in cases {
        println!(
            "  {:<44}{:>10}{:>10}{:>10}",
            case.title,
            tag_index::image_length(case.groups, case.tags.len()),
            tag_index::tagless::image_length(case.groups),
            table_bytes(case)
        );
    }
}

/// The bytes that a `HashMap<u32, u32>` of the list takes from the allocator: a pair and a control byte
/// for each bucket, and a group of 16 control bytes more. Of 8 buckets at most 7 are used.
fn table_bytes(case: &Case) -> usize {
    let map: HashMap<u32, u32> = case.tags.iter().copied().zip(0..).collect();
    let buckets = map.capacity() / 7 * 8;
    assert!(buckets.is_power_of_two() && buckets >= 16);
    buckets * (size_of::<(u32, u32)>() + 1) + 16
}

/// The image without tags of a case, as the model says.
fn tagless_image_of(case: &Case) -> Vec<u8> {
    let mut buffer = vec![CLEARED; LONGEST_TAGLESS_IMAGE];
    let answer = model::answer_tagless_build(&case.text(), &mut buffer);
    assert_eq!(answer >> 32, 0, "{} is not built", case.title);
    buffer.truncate(answer as usize);
    buffer
}

/// The time of so many builds without tags.
fn time_tagless_builds(
    version: Version,
    text: &[u8],
    expected: &[u8],
    iterations: u32,
) -> Duration {
    let answer = expected.len() as u64;
    time_images(version, answer, expected, iterations, |buffer| {
        (version.tagless_build)(black_box(text), black_box(buffer))
    })
}

fn build(case: &Case) -> Row {
    let text = &case.text()[..];
    let expected = &tagless_image_of(case)[..];
    let with_tags = &image_of(case)[..];
    assert!(with_tags.len() <= LONGEST_IMAGE);
    let mut versions: Vec<Timed> = Vec::new();
    for version in BOTH {
        versions.push(Timed {
            name: version.name,
            run: Box::new(move |iterations| {
                time_tagless_builds(version, text, expected, iterations)
            }),
        });
    }
    versions.push(Timed {
        name: WITH_TAGS,
        run: Box::new(move |iterations| {
            let answer = with_tags.len() as u64;
            time_builds(PROVED, text, answer, with_tags, iterations)
        }),
    });
    let (least, most) = case.sizes();
    let title = format!(
        "build without tags: {} ({least} to {most} a group)",
        case.title
    );
    row(title, measure(1, versions))
}

/// The time of so many checks of an image that is accepted.
fn time_checks(image: &[u8], iterations: u32, check: fn(&[u8]) -> u64) -> Duration {
    let begin = Instant::now();
    let mut answers = 0;
    for _ in 0..iterations {
        answers |= check(black_box(image));
    }
    let all = begin.elapsed();
    assert_eq!(answers, 0);
    all
}

fn check(case: &Case) -> Row {
    let image = &tagless_image_of(case)[..];
    let with_tags = &image_of(case)[..];
    assert_eq!(model::answer_tagless_check(image), 0);
    let mut versions: Vec<Timed> = Vec::new();
    for version in BOTH {
        versions.push(Timed {
            name: version.name,
            run: Box::new(move |iterations| time_checks(image, iterations, version.tagless_check)),
        });
    }
    versions.push(Timed {
        name: WITH_TAGS,
        run: Box::new(move |iterations| time_checks(with_tags, iterations, PROVED.check)),
    });
    let title = format!("check without tags: {}", case.title);
    row(title, measure(1, versions))
}

/// Lookups of the queries without tags, and of the same in the image with tags.
fn lookup(case: &Case, kind: &str, queries: &[u32]) -> Row {
    let image = &tagless_image_of(case)[..];
    let with_tags = &image_of(case)[..];
    let answers = |lookup: &dyn Fn(u32) -> u64| -> Vec<u64> {
        queries.iter().map(|&tag| lookup(tag)).collect()
    };
    let expected = &answers(&|tag| model::answer_tagless_lookup(image, tag))[..];
    let expected_with = &answers(&|tag| model::answer_lookup(with_tags, tag))[..];
    let mut versions: Vec<Timed> = Vec::new();
    for version in BOTH {
        versions.push(Timed {
            name: version.name,
            run: Box::new(move |iterations| {
                time_lookups(queries, expected, iterations, |tag| {
                    (version.tagless_lookup)(black_box(image), tag)
                })
            }),
        });
    }
    versions.push(Timed {
        name: WITH_TAGS,
        run: Box::new(move |iterations| {
            time_lookups(queries, expected_with, iterations, |tag| {
                (PROVED.lookup)(black_box(with_tags), tag)
            })
        }),
    });
    let title = format!(
        "lookup without tags, {kind} in random order: {}",
        case.title
    );
    row(title, measure(queries.len(), versions))
}
