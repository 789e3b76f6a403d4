//! Counting parts beside plain Rust, and the second test of a seed beside the first, in one run.

use crate::cases::{self, Groups, Tested, LIMIT};
use crate::plain;
use crate::tables::{row, Row};
use crate::timing::{measure, median, time, Sample, Timed};
use crate::versions::{BOTH, PROVED};
use model::placing::{first_seed, serves};
use std::hint::black_box;
use std::time::{Duration, Instant};

/// These tables alone.
pub fn print() {
    rows();
    print_beside();
}

/// Counting parts of each group that is placed, under two seeds.
pub fn rows() -> Vec<Row> {
    cases::placed().iter().map(count).collect()
}

/// Each group with its least seed, which serves, and with the one before it, or the first other, which does
/// not.
pub fn under_two_seeds(groups: &Groups) -> Vec<(Vec<u32>, u32)> {
    let both = |tags: &Vec<u32>| {
        let least = first_seed(tags, LIMIT).expect("some seed serves the group");
        let other = match least {
            0 => (1..LIMIT).find(|&seed| !serves(tags, seed)),
            _ => Some(least - 1),
        };
        let other = other.expect("some seed does not serve the group");
        [least, other].map(|seed| (tags.clone(), seed))
    };
    groups.groups.iter().flat_map(both).collect()
}

/// Counting parts, asserted against the model.
fn count(groups: &Groups) -> Row {
    let tested = under_two_seeds(groups);
    let expected: Vec<u64> = tested
        .iter()
        .map(|(tags, seed)| model::answer_parts(tags, *seed))
        .collect();
    let (tested, expected) = (&tested[..], &expected[..]);
    let versions = BOTH.iter().map(|&version| Timed {
        name: version.name,
        run: Box::new(move |iterations| {
            timed(iterations, expected, |answers| {
                for (tags, seed) in tested {
                    answers.push((version.count_parts)(black_box(tags), *seed));
                }
            })
        }),
    });
    row(
        format!("count parts, two seeds each: {}", groups.title),
        measure(tested.len(), versions.collect()),
    )
}

/// The time of so many passes that give these answers each.
fn timed<T: PartialEq>(
    iterations: u32,
    expected: &[T],
    mut pass: impl FnMut(&mut Vec<T>),
) -> Duration {
    let mut answers = Vec::with_capacity(expected.len());
    let mut all = Duration::ZERO;
    for _ in 0..iterations {
        answers.clear();
        let begin = Instant::now();
        pass(&mut answers);
        all += begin.elapsed();
        assert!(answers == expected, "another answer");
    }
    all
}

/// The tests of a seed, in the order of the samples. Placing, with the limit of a group, makes the first one
/// of each seed below it. The others are called for each of these seeds.
const FIRST: &str = "placing";
const SECOND: &str = "count parts";
const PLAIN_FIRST: &str = "plain first";
const PLAIN_SECOND: &str = "plain second";
const PLAIN_DROP: &str = "plain drop+2nd";
const PLAIN_EVICTION: &str = "plain eviction";

/// A test of one seed in plain Rust.
type Test = fn(&[u32], u32) -> bool;

const PLAIN_TESTS: [(&str, Test); 4] = [
    (PLAIN_FIRST, plain::serves),
    (PLAIN_SECOND, plain::serves_by_parts),
    (PLAIN_DROP, plain::serves_by_parts_unless_dropped),
    (PLAIN_EVICTION, plain::serves_by_eviction),
];

/// The time of one seed by each test, on the same groups and the same seeds.
pub fn print_beside() {
    println!("\nThe second test of a seed beside the first: the time of one seed. Placing, with L so that it tries exactly these seeds, makes the first test of each and checks the tags once for all of them; where the seed serves it finds the choice word too. Counting parts is called for each seed, and checks the tags each time. In plain Rust, without these checks: the first test drops a seed early or evicts, the second joins parts until one has too many tags.");
    let mut rows = Vec::new();
    for tested in cases::failing()
        .iter()
        .chain(&cases::failing_by_eviction())
        .chain(&cases::serving())
    {
        let dropped = tested.seeds() - tested.passing();
        let share = 100.0 * dropped as f64 / tested.seeds() as f64;
        let title = format!("seeds that {}", tested.title);
        let samples = row(title.clone(), measure_tests(tested)).samples;
        rows.push((title, share, samples));
    }
    println!("\nThe second test beside the first: medians, and the median of the ratios");
    println!(
        "  {:<48}{:>8}{:>10}{:>10}  ratio{:>12}{:>10}  ratio{:>12}  ratio{:>12}",
        "", "dropped", "first", "second", "plain 1st", "2nd", "drop, 2nd", "no drop"
    );
    for (title, share, samples) in rows {
        let of = |name| sample(&samples, name);
        let ratio = |own: &Sample, base: &Sample| median(&own.ratios(base));
        println!(
            "  {title:<48}{:>8}{:>10}{:>10}  {:>5.2}{:>12}{:>10}  {:>5.2}{:>12}  {:>5.2}{:>12}",
            format!("{share:.1} %"),
            time(of(FIRST).median()),
            time(of(SECOND).median()),
            ratio(of(SECOND), of(FIRST)),
            time(of(PLAIN_FIRST).median()),
            time(of(PLAIN_SECOND).median()),
            ratio(of(PLAIN_SECOND), of(PLAIN_FIRST)),
            time(of(PLAIN_DROP).median()),
            ratio(of(PLAIN_DROP), of(PLAIN_FIRST)),
            time(of(PLAIN_EVICTION).median()),
        );
    }
}

fn sample<'a>(samples: &'a [Sample], name: &str) -> &'a Sample {
    let found = samples.iter().find(|sample| sample.name == name);
    found.expect("every row has it")
}

/// All tests of the seeds below each group's limit, asserted against the model.
fn measure_tests(tested: &Tested) -> Vec<Sample> {
    let groups = &tested.groups[..];
    let each = groups
        .iter()
        .flat_map(|(tags, limit)| (0..*limit).map(move |seed| (&tags[..], seed)));
    let placed: &Vec<(u64, u32)> = &groups
        .iter()
        .map(|(tags, limit)| {
            let mut word = [0];
            (model::answer_place(tags, *limit, &mut word), word[0])
        })
        .collect();
    let parts: &Vec<u64> = &(each.clone())
        .map(|(tags, seed)| model::answer_parts(tags, seed))
        .collect();
    let serving: &Vec<bool> = &each.map(|(tags, seed)| serves(tags, seed)).collect();

    let mut versions = vec![
        Timed {
            name: FIRST,
            run: Box::new(move |iterations| {
                timed(iterations, placed, |answers| {
                    for (tags, limit) in groups {
                        let mut word = [0];
                        let answer = (PROVED.place)(black_box(tags), *limit, &mut word);
                        answers.push((answer, word[0]));
                    }
                })
            }),
        },
        Timed {
            name: SECOND,
            run: Box::new(move |iterations| {
                timed(iterations, parts, |answers| {
                    for (tags, limit) in groups {
                        for seed in 0..*limit {
                            answers.push((PROVED.count_parts)(black_box(tags), seed));
                        }
                    }
                })
            }),
        },
    ];
    for (name, test) in PLAIN_TESTS {
        versions.push(Timed {
            name,
            run: Box::new(move |iterations| {
                timed(iterations, serving, |answers| {
                    for (tags, limit) in groups {
                        for seed in 0..*limit {
                            answers.push(test(black_box(tags), seed));
                        }
                    }
                })
            }),
        });
    }
    measure(tested.seeds(), versions)
}
