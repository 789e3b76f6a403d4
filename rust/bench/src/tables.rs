//! Building, checking and lookup of each case, planning, writing, placing, counting parts, the strict check
//! and printing: every version's time, with its results asserted.

use crate::cases::{self, Case, Groups, LIMIT};
use crate::parts;
use crate::slot_lines;
use crate::strict;
use crate::tagless;
use crate::timing::{measure, median, print as print_samples, time, Sample, Timed, REPETITIONS};
use crate::versions::{Version, BOTH};
use random::Random;
use std::collections::HashMap;
use std::hint::black_box;
use std::io::{self, Write};
use std::path::Path;
use std::process::{Command, Stdio};
use std::time::{Duration, Instant};
use tag_index::{LONGEST_IMAGE, PLAN_CELLS};

/// What stands in a buffer before a build or a writing.
pub const CLEARED: u8 = b'.';

/// What stands in every cell of a plan before a planning.
const NO_SEED: u32 = u32::MAX;

/// A table's title and its samples, the proved version's and the plain one's first.
pub struct Row {
    pub title: String,
    pub samples: Vec<Sample>,
}

pub fn print(printer: &Path) {
    println!(
        "Times of one operation: medians of {REPETITIONS} repetitions, with the versions in turn."
    );
    println!("  proved         the proved library over its C boundary; it builds by planning and writing in turn");
    println!("  plain          plain Rust on the same text or tags, rust/bench/src/plain.rs; it builds in one call");
    println!("  hash map       std HashMap<u32, u32> of the parsed list");
    println!("  sorted slice   pairs of the parsed list, by binary search");
    println!("  build          the proved library building the same list, beside the strict check");
    println!("  with tags      the proved library on the image with tags of the same list, beside the index without tags");
    println!("Answers, plans and images are asserted equal, byte for byte, to the model's: after every build, planning and writing, and after every pass of checks, lookups, placings or counts of parts, outside the times.");
    println!("Buffers are filled with '.' before every build and writing, cells with {NO_SEED} before every planning, outside the times; L = {LIMIT} in all cases.");

    let mut rows = Vec::new();
    let built = cases::built();
    rows.extend(built.iter().map(build));
    rows.extend(cases::unserved().iter().map(build_unserved));
    let planned = cases::planned();
    let printed = cases::printed();
    rows.extend(planned.iter().map(plan));
    rows.extend(planned.iter().map(write));
    rows.extend(printed.iter().map(|case| print_index(case, printer)));
    rows.extend(cases::placed().iter().map(place));
    rows.extend(parts::rows());
    rows.extend(built.iter().map(check));
    let strictly = strict::rows(&planned);
    let mut random = Random::new(3);
    for case in &built {
        let hits = case.shuffled(&mut random);
        rows.push(lookup(case, "hits", &hits));
        let misses = case.absent(&mut random);
        rows.push(lookup(case, "misses", &misses));
    }
    let without_tags = tagless::rows(&planned, &mut random);

    println!("\nSummary: medians, and the median of the ratios");
    println!("  {:<76}{:>10}{:>11}  ratio", "", "proved", "plain");
    for row in rows.iter().chain(&strictly).chain(&without_tags) {
        let [proved, plain] = [&row.samples[0], &row.samples[1]];
        println!(
            "  {:<76}{:>10}{:>11}  {:.2}",
            row.title,
            time(proved.median()),
            time(plain.median()),
            median(&proved.ratios(plain))
        );
    }
    strict::print_beside(&strictly);
    parts::print_beside();
    slot_lines::print();
    tagless::print_beside(&without_tags);
    tagless::print_sizes(&built);
}

pub fn row(title: String, samples: Vec<Sample>) -> Row {
    print_samples(&title, &samples);
    Row { title, samples }
}

/// The image of a case, if it has one, and building's answer, as the model says.
fn expected(case: &Case) -> (u64, Vec<u8>) {
    let mut buffer = vec![CLEARED; LONGEST_IMAGE];
    let answer = model::answer_build(&case.text(), &mut buffer);
    (answer, buffer)
}

pub fn image_of(case: &Case) -> Vec<u8> {
    let (answer, buffer) = expected(case);
    assert_eq!(answer >> 32, 0, "{} is not built", case.title);
    buffer[..answer as usize].to_vec()
}

/// The tags with their numbers, in the order of the list.
fn pairs_of(case: &Case, image: &[u8]) -> Vec<(u32, u32)> {
    let number = |&tag| (tag, model::answer_lookup(image, tag) as u32);
    case.tags.iter().map(number).collect()
}

/// The time of so many builds.
pub fn time_builds(
    version: Version,
    text: &[u8],
    answer: u64,
    expected: &[u8],
    iterations: u32,
) -> Duration {
    time_images(version, answer, expected, iterations, |buffer| {
        (version.build)(black_box(text), black_box(buffer))
    })
}

/// The time of so many runs that leave this image in a buffer and answer this number.
pub fn time_images(
    version: Version,
    answer: u64,
    expected: &[u8],
    iterations: u32,
    run: impl Fn(&mut [u8]) -> u64,
) -> Duration {
    let mut buffer = vec![0; expected.len()];
    let mut all = Duration::ZERO;
    for _ in 0..iterations {
        buffer.fill(CLEARED);
        let begin = Instant::now();
        let answered = run(&mut buffer);
        all += begin.elapsed();
        assert_eq!(answered, answer);
        assert!(buffer == expected, "{} writes another image", version.name);
    }
    all
}

/// Building by all versions, asserted against the model.
pub fn build_samples(case: &Case) -> Vec<Sample> {
    let text = &case.text()[..];
    let (answer, expected) = &expected(case);
    let pairs = match answer >> 32 {
        0 => pairs_of(case, &expected[..*answer as usize]),
        _ => Vec::new(),
    };
    let mut versions = Vec::new();
    for version in BOTH {
        versions.push(Timed {
            name: version.name,
            run: Box::new(move |iterations| {
                time_builds(version, text, *answer, expected, iterations)
            }),
        });
    }
    if !pairs.is_empty() {
        versions.extend(containers(&pairs));
    }
    measure(1, versions)
}

/// Making a hash map and a sorted slice of the pairs.
fn containers(pairs: &[(u32, u32)]) -> [Timed<'_>; 2] {
    [
        Timed {
            name: "hash map",
            run: Box::new(move |iterations| {
                let mut all = Duration::ZERO;
                for _ in 0..iterations {
                    let begin = Instant::now();
                    let map: HashMap<u32, u32> = black_box(pairs).iter().copied().collect();
                    all += begin.elapsed();
                    assert!(pairs
                        .iter()
                        .all(|(tag, number)| map.get(tag) == Some(number)));
                }
                all
            }),
        },
        Timed {
            name: "sorted slice",
            run: Box::new(move |iterations| {
                let mut all = Duration::ZERO;
                for _ in 0..iterations {
                    let begin = Instant::now();
                    let mut sorted = black_box(pairs).to_vec();
                    sorted.sort_unstable();
                    all += begin.elapsed();
                    assert!(sorted == pairs);
                }
                all
            }),
        },
    ]
}

fn build(case: &Case) -> Row {
    let (least, most) = case.sizes();
    let title = format!("build: {} ({least} to {most} a group)", case.title);
    row(title, build_samples(case))
}

/// Building where every seed is tried: the case must be what its title says.
fn build_unserved(case: &Case) -> Row {
    assert_eq!(expected(case).0, 7 << 32, "{}", case.title);
    let passing = if case.name.ends_with("dropped") {
        0
    } else {
        LIMIT as usize
    };
    assert_eq!(cases::passing(&case.tags, LIMIT), passing, "{}", case.title);
    row(format!("build: {}", case.title), build_samples(case))
}

/// The plan of a case, as the model says.
fn plan_of(case: &Case) -> [u32; PLAN_CELLS] {
    let mut cells = [NO_SEED; PLAN_CELLS];
    let answer = model::answer_plan(&case.text(), &mut cells);
    assert_eq!(answer, case.groups.into(), "{} is not planned", case.title);
    cells
}

/// The time of so many plannings.
fn time_plannings(
    version: Version,
    text: &[u8],
    expected: &[u32; PLAN_CELLS],
    iterations: u32,
) -> Duration {
    let mut cells = [0; PLAN_CELLS];
    let mut all = Duration::ZERO;
    for _ in 0..iterations {
        cells.fill(NO_SEED);
        let begin = Instant::now();
        let answered = (version.plan)(black_box(text), black_box(&mut cells));
        all += begin.elapsed();
        assert_eq!(answered, expected[0].into());
        assert!(cells == *expected, "{} makes another plan", version.name);
    }
    all
}

/// The seeds alone, without an image.
fn plan(case: &Case) -> Row {
    let text = &case.text()[..];
    let expected = &plan_of(case);
    let versions = BOTH.iter().map(|&version| Timed {
        name: version.name,
        run: Box::new(move |iterations| time_plannings(version, text, expected, iterations)),
    });
    row(
        format!("plan: {}", case.title),
        measure(1, versions.collect()),
    )
}

/// The time of so many writings under one plan.
fn time_writings(
    version: Version,
    text: &[u8],
    plan: &[u32; PLAN_CELLS],
    expected: &[u8],
    iterations: u32,
) -> Duration {
    let answer = expected.len() as u64;
    time_images(version, answer, expected, iterations, |buffer| {
        (version.write)(black_box(text), black_box(plan), black_box(buffer))
    })
}

/// The image under the plan of the same list.
fn write(case: &Case) -> Row {
    let text = &case.text()[..];
    let plan = &plan_of(case);
    let expected = &image_of(case)[..];
    let versions = BOTH.iter().map(|&version| Timed {
        name: version.name,
        run: Box::new(move |iterations| time_writings(version, text, plan, expected, iterations)),
    });
    row(
        format!("write: {}", case.title),
        measure(1, versions.collect()),
    )
}

/// The time of so many runs of a program that reads a text and writes an image, from its start to its end.
fn time_runs(
    program: &Path,
    words: &[&str],
    text: &[u8],
    image: &[u8],
    iterations: u32,
) -> Duration {
    let mut all = Duration::ZERO;
    for _ in 0..iterations {
        let begin = Instant::now();
        let output = run(program, words, text).expect("the program runs");
        all += begin.elapsed();
        assert!(
            output == image,
            "{} writes another image",
            program.display()
        );
    }
    all
}

/// What a program writes for a text. The text fits the pipe, so nobody waits for the other.
fn run(program: &Path, words: &[&str], text: &[u8]) -> io::Result<Vec<u8>> {
    let mut child = Command::new(program)
        .args(words)
        .stdin(Stdio::piped())
        .stdout(Stdio::piped())
        .spawn()?;
    child.stdin.take().expect("a pipe").write_all(text)?;
    Ok(child.wait_with_output()?.stdout)
}

/// The index printer and a plain one, as programs.
fn print_index(case: &Case, printer: &Path) -> Row {
    let text = &case.text()[..];
    let image = &image_of(case)[..];
    let plain = &std::env::current_exe().expect("this program has a path");
    row(
        format!("print, as a program: {}", case.title),
        measure(
            1,
            vec![
                Timed {
                    name: "proved",
                    run: Box::new(move |iterations| {
                        time_runs(printer, &[], text, image, iterations)
                    }),
                },
                Timed {
                    name: "plain",
                    run: Box::new(move |iterations| {
                        time_runs(plain, &["--print"], text, image, iterations)
                    }),
                },
            ],
        ),
    )
}

/// What stands in a cell before a placing. No group has this word: there is a cycle, and turned round
/// it has no ones.
const NO_WORD: [u32; 1] = [u32::MAX];

/// The time of so many passes over the groups.
fn time_placings(
    version: Version,
    groups: &[Vec<u32>],
    expected: &[(u64, [u32; 1])],
    iterations: u32,
) -> Duration {
    let mut placed = vec![(0, NO_WORD); groups.len()];
    let mut all = Duration::ZERO;
    for _ in 0..iterations {
        placed.fill((0, NO_WORD));
        let begin = Instant::now();
        for ((answer, word), tags) in placed.iter_mut().zip(groups) {
            *answer = (version.place)(black_box(tags), LIMIT, word);
        }
        all += begin.elapsed();
        assert!(placed == expected, "{} places otherwise", version.name);
    }
    all
}

/// Placing each of the groups by itself, asserted against the model: the seed and the word.
fn place(groups: &Groups) -> Row {
    let stated = |tags: &Vec<u32>| {
        let (seed, word) = model::place_group(tags, LIMIT).expect("some seed serves the group");
        (seed.into(), [word])
    };
    let title = format!("place: {}", groups.title);
    let groups = &groups.groups[..];
    let expected: Vec<(u64, [u32; 1])> = groups.iter().map(stated).collect();
    let expected = &expected[..];
    let versions = BOTH.iter().map(|&version| Timed {
        name: version.name,
        run: Box::new(move |iterations| time_placings(version, groups, expected, iterations)),
    });
    row(title, measure(groups.len(), versions.collect()))
}

fn check(case: &Case) -> Row {
    let image = &image_of(case)[..];
    assert_eq!(model::answer_check(image), 0);
    let versions = BOTH.iter().map(|&version| Timed {
        name: version.name,
        run: Box::new(move |iterations| {
            let begin = Instant::now();
            let mut answers = 0;
            for _ in 0..iterations {
                answers |= (version.check)(black_box(image));
            }
            let all = begin.elapsed();
            assert_eq!(answers, 0);
            all
        }),
    });
    row(
        format!("check: {}", case.title),
        measure(1, versions.collect()),
    )
}

/// The time of so many passes over the queries.
pub fn time_lookups(
    queries: &[u32],
    expected: &[u64],
    iterations: u32,
    lookup: impl Fn(u32) -> u64,
) -> Duration {
    let mut answers = vec![0; queries.len()];
    let mut all = Duration::ZERO;
    for _ in 0..iterations {
        let begin = Instant::now();
        for (answer, &tag) in answers.iter_mut().zip(queries) {
            *answer = lookup(tag);
        }
        all += begin.elapsed();
        assert!(answers == expected);
    }
    all
}

/// Lookups of the queries in all versions, asserted against the model.
pub fn lookup_samples(case: &Case, queries: &[u32]) -> Vec<Sample> {
    let image = &image_of(case)[..];
    let expected: Vec<u64> = queries
        .iter()
        .map(|&tag| model::answer_lookup(image, tag))
        .collect();
    let expected = &expected[..];
    let sorted = pairs_of(case, image);
    let map: HashMap<u32, u32> = sorted.iter().copied().collect();
    let (sorted, map) = (&sorted[..], &map);
    let [proved, plain] = BOTH.map(|version| version.lookup);
    let versions = vec![
        Timed {
            name: "proved",
            run: Box::new(move |iterations| {
                time_lookups(queries, expected, iterations, |tag| {
                    proved(black_box(image), tag)
                })
            }),
        },
        Timed {
            name: "plain",
            run: Box::new(move |iterations| {
                time_lookups(queries, expected, iterations, |tag| {
                    plain(black_box(image), tag)
                })
            }),
        },
        Timed {
            name: "hash map",
            run: Box::new(move |iterations| {
                time_lookups(queries, expected, iterations, |tag| {
                    let found = black_box(map).get(&tag);
                    found.map_or(tag_index::UNKNOWN, |&number| number.into())
                })
            }),
        },
        Timed {
            name: "sorted slice",
            run: Box::new(move |iterations| {
                time_lookups(queries, expected, iterations, |tag| {
                    let sorted = black_box(sorted);
                    match sorted.binary_search_by_key(&tag, |&(listed, _)| listed) {
                        Ok(index) => sorted[index].1.into(),
                        Err(_) => tag_index::UNKNOWN,
                    }
                })
            }),
        },
    ];
    measure(queries.len(), versions)
}

fn lookup(case: &Case, kind: &str, queries: &[u32]) -> Row {
    row(
        format!("lookup, {kind} in random order: {}", case.title),
        lookup_samples(case, queries),
    )
}
