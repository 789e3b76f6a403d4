//! The strict check beside plain Rust, and beside building the same list, in one run.

use crate::cases::{self, Case};
use crate::tables::{image_of, row, time_builds, Row};
use crate::timing::{measure, median, time, Timed};
use crate::versions::{BOTH, PROVED};
use std::hint::black_box;
use std::time::Instant;

/// The sample of the proved library building the list, behind those of the strict check.
const BUILD: &str = "build";

/// These tables alone.
pub fn print() {
    print_beside(&rows(&cases::planned()));
}

pub fn rows(cases: &[Case]) -> Vec<Row> {
    cases.iter().map(check).collect()
}

/// The rows again, beside building.
pub fn print_beside(rows: &[Row]) {
    println!("\nThe strict check beside building the same list, both proved: medians, and the median of the ratios");
    println!("  {:<76}{:>10}{:>11}  ratio", "", "check", "build");
    for row in rows {
        let check = &row.samples[0];
        let build = row
            .samples
            .iter()
            .find(|sample| sample.name == BUILD)
            .expect("every row has it");
        println!(
            "  {:<76}{:>10}{:>11}  {:.2}",
            row.title,
            time(check.median()),
            time(build.median()),
            median(&check.ratios(build))
        );
    }
}

/// The strict check of a built image, which is accepted, and building it.
fn check(case: &Case) -> Row {
    let text = &case.text()[..];
    let image = &image_of(case)[..];
    assert_eq!(model::answer_strict_check(image), 0);
    let mut versions: Vec<Timed> = Vec::new();
    for version in BOTH {
        versions.push(Timed {
            name: version.name,
            run: Box::new(move |iterations| {
                let begin = Instant::now();
                let mut answers = 0;
                for _ in 0..iterations {
                    answers |= (version.strict_check)(black_box(image));
                }
                let all = begin.elapsed();
                assert_eq!(answers, 0);
                all
            }),
        });
    }
    versions.push(Timed {
        name: BUILD,
        run: Box::new(move |iterations| {
            time_builds(PROVED, text, image.len() as u64, image, iterations)
        }),
    });
    row(
        format!("strict check: {}", case.title),
        measure(1, versions),
    )
}
