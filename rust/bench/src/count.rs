//! One case run a number of times, for a tool that counts instructions.
//!
//! What is counted besides the operation is the same for every number of repetitions, so the
//! difference of two runs is what the repetitions between them take.

use crate::cases::{self, Case, LIMIT};
use crate::parts;
use crate::versions::{Version, BOTH, PLAIN};
use random::Random;
use std::hint::black_box;
use tag_index::{LONGEST_IMAGE, PLAN_CELLS};

/// Lookups in a repetition.
const LOOKUPS: usize = 1_000;

const OPERATIONS: [&str; 13] = [
    "build",
    "plan",
    "write",
    "check",
    "strict_check",
    "hits",
    "misses",
    PLACE,
    COUNT_PARTS,
    "tagless_build",
    "tagless_check",
    "tagless_hits",
    "tagless_strangers",
];

/// The operations that take groups and no list.
const PLACE: &str = "place";
const COUNT_PARTS: &str = "count_parts";

/// What the operations of the index without tags begin with.
const TAGLESS: &str = "tagless_";

/// Prints the names of the cases and of the versions.
pub fn print_cases() {
    for operation in OPERATIONS {
        let names: Vec<&str> = match operation {
            PLACE | COUNT_PARTS => cases::placed().iter().map(|groups| groups.name).collect(),
            _ => cases_of(operation).iter().map(|case| case.name).collect(),
        };
        for name in names {
            println!("{operation}-{name}");
        }
    }
    println!("versions: {}", BOTH.map(|version| version.name).join(" "));
}

/// The cases that an operation on lists takes.
fn cases_of(operation: &str) -> Vec<Case> {
    match operation {
        "build" => cases::built()
            .into_iter()
            .chain(cases::unserved())
            .collect(),
        "plan" | "write" | "strict_check" => cases::planned(),
        _ if operation.starts_with(TAGLESS) => cases::planned(),
        _ => cases::built(),
    }
}

pub fn run(case: &str, version: &str, repetitions: &str) -> Result<(), String> {
    let no_case = || format!("there is no case {case}");
    let (operation, name) = case
        .split_once('-')
        .filter(|(operation, _)| OPERATIONS.contains(operation))
        .ok_or_else(no_case)?;
    let version = BOTH
        .into_iter()
        .find(|listed| listed.name == version)
        .ok_or_else(|| format!("there is no version {version}"))?;
    let repetitions = repetitions
        .parse()
        .map_err(|_| format!("{repetitions} is no number of repetitions"))?;
    if [PLACE, COUNT_PARTS].contains(&operation) {
        let mut groups = cases::placed();
        groups.retain(|listed| listed.name == name);
        let groups = groups.pop().ok_or_else(no_case)?;
        match operation {
            PLACE => repeat_placing(&groups.groups, version, repetitions),
            _ => repeat_counting(&parts::under_two_seeds(&groups), version, repetitions),
        }
    } else {
        let mut cases = cases_of(operation);
        cases.retain(|listed| listed.name == name);
        let case = cases.pop().ok_or_else(no_case)?;
        repeat(operation, &case, version, repetitions);
    }
    Ok(())
}

/// Places each of the groups in a repetition.
fn repeat_placing(groups: &[Vec<u32>], version: Version, repetitions: u32) {
    let mut word = [0];
    for _ in 0..repetitions {
        for tags in groups {
            black_box((version.place)(
                black_box(tags),
                LIMIT,
                black_box(&mut word),
            ));
        }
    }
}

/// Counts the parts of each group under its seed in a repetition.
fn repeat_counting(tested: &[(Vec<u32>, u32)], version: Version, repetitions: u32) {
    for _ in 0..repetitions {
        for (tags, seed) in tested {
            black_box((version.count_parts)(black_box(tags), *seed));
        }
    }
}

/// Runs an operation on a list, or on its image.
fn repeat(operation: &str, case: &Case, version: Version, repetitions: u32) {
    let text = &case.text()[..];
    let mut buffer = vec![b'.'; LONGEST_IMAGE];
    let mut plan = [0; PLAN_CELLS];
    match operation {
        "build" => {
            for _ in 0..repetitions {
                black_box((version.build)(black_box(text), black_box(&mut buffer)));
            }
        }
        "plan" => {
            for _ in 0..repetitions {
                black_box((version.plan)(black_box(text), black_box(&mut plan)));
            }
        }
        "write" => {
            let groups = (PLAIN.plan)(text, &mut plan);
            assert_eq!(groups, case.groups.into(), "{} is not planned", case.title);
            for _ in 0..repetitions {
                let buffer = black_box(&mut buffer);
                black_box((version.write)(black_box(text), black_box(&plan), buffer));
            }
        }
        "tagless_build" => {
            for _ in 0..repetitions {
                let buffer = black_box(&mut buffer);
                black_box((version.tagless_build)(black_box(text), buffer));
            }
        }
        _ => {
            let build = match operation.starts_with(TAGLESS) {
                true => PLAIN.tagless_build,
                false => PLAIN.build,
            };
            let length = build(text, &mut buffer);
            assert_eq!(length >> 32, 0, "{} is not built", case.title);
            repeat_on_image(
                operation,
                case,
                &buffer[..length as usize],
                version,
                repetitions,
            );
        }
    }
}

fn repeat_on_image(operation: &str, case: &Case, image: &[u8], version: Version, repetitions: u32) {
    let mut random = Random::new(3);
    let mut queries = match operation {
        "misses" | "tagless_strangers" => case.absent(&mut random),
        _ => case.shuffled(&mut random),
    };
    queries.truncate(LOOKUPS);
    let (check, lookup) = match operation {
        "strict_check" => (version.strict_check, version.lookup),
        _ if operation.starts_with(TAGLESS) => (version.tagless_check, version.tagless_lookup),
        _ => (version.check, version.lookup),
    };
    for _ in 0..repetitions {
        if operation.ends_with("check") {
            black_box(check(black_box(image)));
        } else {
            for &tag in &queries {
                black_box(lookup(black_box(image), tag));
            }
        }
    }
}
