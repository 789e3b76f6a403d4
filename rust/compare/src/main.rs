//! Runs cases against the model of the papers: the proved functions over the C boundary, answers
//! and every lent cell and byte, the binding's `Index`, `Plan` and `TaglessIndex`, and the index printer.
//!
//!     compare                  ten million answers and more, under a minute
//!     compare --long           more than twenty million, and many more lists
//!     compare --small          few cases, in memory of just the right size: for a memory checker
//!     compare --tagless        the cases of the index without tags alone
//!     compare --strict         the images edited for the strict check alone
//!     compare --parts          the groups whose parts are counted alone
//!     compare --stored         the stored outputs of the program crates, printed again from the model
//!     compare --print PROGRAM  what the model writes for the cases of a program crate
//!     compare --soak SECONDS   all calls again and again in one process, whose memory must not grow
//!
//! `--seed NUMBER` takes other random cases, `--printer PATH` another printer than the repository's
//! `target/bin/printer`, `--no-printer` none. The first difference ends the run with status 1.

mod choices;
mod groups;
mod images;
mod lists;
mod parts;
mod plans;
mod printing;
mod soak;
mod stored;
mod strict;
mod tagless;
mod tally;
mod texts;
mod widths;

use std::env;
use std::io::{self, Write};
use std::path::{Path, PathBuf};
use std::process::ExitCode;
use std::time::{Duration, Instant};

use random::Random;

use tally::{Least, Tally};

/// How many cases a run has.
pub struct Size {
    /// Rounds of one list of each kind, for building and for damage.
    lists: usize,
    full_lists: usize,
    /// Lists of 128 groups that have 32 tags each.
    all_full: usize,
    large_lists: usize,
    /// Rounds of one list of each kind, planned and written with plans of all kinds, and large ones.
    plans: usize,
    large_plans: usize,
    /// Rounds of all sets of refusals due at once, and of groups of each size under one seed.
    due: usize,
    seeds: usize,
    /// Images of which each byte is changed, and by which steps: 1 is all other values.
    small_images: usize,
    byte_step: usize,
    /// Images with groups of 18 to 32 tags.
    full_images: usize,
    large_images: usize,
    /// Faults in each large image.
    large_samples: usize,
    /// Rounds of lists for the printer.
    printed: usize,
    /// Rounds of all shapes of groups, and of random groups, of each size.
    shapes: usize,
    groups: usize,
    /// For the order of choices: the sizes of which a group is placed for every sequence of pairs of
    /// places, from 1 on, and rounds of all shapes.
    every_pair: usize,
    choices: usize,
    /// For the strict check: rounds of edits in small images of many kinds, images of many groups or of
    /// large ones, and by which steps every seed of a group is stated: 1 is all of them.
    edits: usize,
    large_edits: usize,
    seed_step: usize,
    /// For counting parts: rounds of all shapes of groups and of drawn ones, of each size.
    parts: usize,
    /// For the index without tags: rounds of lists of many groups, and of groups of each size and kind.
    many_groups: usize,
    words: usize,
    least: Least,
}

const SMALL: Size = Size {
    lists: 1,
    full_lists: 1,
    all_full: 0,
    large_lists: 1,
    plans: 1,
    large_plans: 1,
    due: 1,
    seeds: 1,
    small_images: 2,
    byte_step: 51,
    full_images: 2,
    large_images: 1,
    large_samples: 3,
    printed: 0,
    shapes: 1,
    groups: 1,
    every_pair: 3,
    choices: 1,
    edits: 1,
    large_edits: 1,
    seed_step: 4_001,
    parts: 1,
    many_groups: 1,
    words: 1,
    least: Least {
        answers: 1_000,
        large: 100,
        words: 1_000,
        choices: 100,
        edited: 1_000,
        parts: 1_000,
    },
};

const USUAL: Size = Size {
    lists: 500,
    full_lists: 100,
    all_full: 1,
    large_lists: 150,
    plans: 80,
    large_plans: 15,
    due: 8,
    seeds: 12,
    small_images: 99,
    byte_step: 1,
    full_images: 60,
    large_images: 12,
    large_samples: 100,
    printed: 12,
    shapes: 4,
    groups: 40,
    every_pair: 5,
    choices: 210,
    edits: 2_600,
    large_edits: 6,
    seed_step: 1,
    parts: 24,
    many_groups: 40,
    words: 24,
    least: Least {
        answers: 10_000_000,
        large: 1_000,
        words: 100_000,
        choices: 100_000,
        edited: 1_000_000,
        parts: 100_000,
    },
};

const LONG: Size = Size {
    lists: 6_000,
    full_lists: 1_000,
    all_full: 8,
    large_lists: 1_500,
    plans: 800,
    large_plans: 150,
    due: 80,
    seeds: 150,
    small_images: 99,
    byte_step: 1,
    full_images: 400,
    large_images: 80,
    large_samples: 400,
    printed: 100,
    shapes: 40,
    groups: 400,
    every_pair: 5,
    choices: 2_100,
    edits: 26_000,
    large_edits: 60,
    seed_step: 1,
    parts: 240,
    many_groups: 400,
    words: 240,
    least: Least {
        answers: 20_000_000,
        large: 10_000,
        words: 1_000_000,
        choices: 1_000_000,
        edited: 2_000_000,
        parts: 1_000_000,
    },
};

enum Task {
    Compare,
    Tagless,
    Strict,
    Parts,
    Stored,
    Print(String),
    Soak(Duration),
}

struct Options {
    task: Task,
    size: Size,
    /// Lend memory of just the right size.
    exact: bool,
    seed: u64,
    printer: Option<PathBuf>,
}

/// The repository's root: two directories above this crate.
pub fn root() -> PathBuf {
    Path::new(env!("CARGO_MANIFEST_DIR")).join("../..")
}

fn options() -> Result<Options, String> {
    let mut options = Options {
        task: Task::Compare,
        size: USUAL,
        exact: false,
        seed: 1,
        printer: Some(root().join("target/bin/printer")),
    };
    let mut words = env::args().skip(1);
    while let Some(word) = words.next() {
        let mut value = || words.next().ok_or(format!("{word} needs a value"));
        let number = |word: String| {
            word.parse::<u64>()
                .map_err(|_| format!("{word}: no number"))
        };
        match word.as_str() {
            "--long" => options.size = LONG,
            "--small" => {
                options.size = SMALL;
                options.exact = true;
                options.printer = None;
            }
            "--tagless" => options.task = Task::Tagless,
            "--strict" => options.task = Task::Strict,
            "--parts" => options.task = Task::Parts,
            "--stored" => options.task = Task::Stored,
            "--print" => options.task = Task::Print(value()?),
            "--soak" => options.task = Task::Soak(Duration::from_secs(number(value()?)?)),
            "--seed" => options.seed = number(value()?)?,
            "--printer" => options.printer = Some(PathBuf::from(value()?)),
            "--no-printer" => options.printer = None,
            _ => return Err(format!("{word} is not known")),
        }
    }
    Ok(options)
}

fn main() -> ExitCode {
    let options = match options() {
        Ok(options) => options,
        Err(fault) => {
            eprintln!("compare: {fault}");
            return ExitCode::from(2);
        }
    };
    let passed = match &options.task {
        Task::Compare => compare(&options),
        Task::Tagless => compare_tagless(&options),
        Task::Strict => compare_strict(&options),
        Task::Parts => compare_parts(&options),
        Task::Stored => stored::compare(&root().join("crates")),
        Task::Print(program) => print(program),
        Task::Soak(time) => soak::run(options.seed, *time),
    };
    if passed {
        ExitCode::SUCCESS
    } else {
        ExitCode::FAILURE
    }
}

fn print(program: &str) -> bool {
    match stored::written(program) {
        Some(output) => io::stdout().write_all(&output).is_ok(),
        None => {
            eprintln!("compare: {program} has no cases here");
            false
        }
    }
}

/// The index without tags alone. The counts are not held against what a whole run must have.
fn compare_tagless(options: &Options) -> bool {
    let mut tally = Tally::new(options.exact);
    tagless::compare(&mut tally, &mut Random::new(options.seed), &options.size);
    let compared = tally.compared();
    println!("compare: {compared} answers of the index without tags, no difference");
    true
}

/// The images edited for the strict check alone.
fn compare_strict(options: &Options) -> bool {
    let begun = Instant::now();
    let mut tally = Tally::new(options.exact);
    strict::compare(&mut tally, &mut Random::new(options.seed), &options.size);
    let complete = tally.report_strict(options.size.least.edited);
    let compared = tally.compared();
    println!(
        "compare: {compared} answers for edited images, no difference; {:.1} s",
        begun.elapsed().as_secs_f64()
    );
    complete
}

/// The groups whose parts are counted alone.
fn compare_parts(options: &Options) -> bool {
    let begun = Instant::now();
    let mut tally = Tally::new(options.exact);
    parts::compare(&mut tally, &mut Random::new(options.seed), &options.size);
    let complete = tally.report_parts(options.size.least.parts);
    let compared = tally.compared();
    println!(
        "compare: {compared} answers for groups whose parts are counted, no difference; {:.1} s",
        begun.elapsed().as_secs_f64()
    );
    complete
}

fn compare(options: &Options) -> bool {
    let begun = Instant::now();
    if let Some(printer) = options.printer.as_ref().filter(|path| !path.is_file()) {
        println!("compare: there is no printer {}", printer.display());
        return false;
    }
    let mut tally = Tally::new(options.exact);
    let mut random = Random::new(options.seed);
    let size = &options.size;
    groups::chosen(&mut tally, &mut random);
    plans::compare(&mut tally, &mut random, size);
    lists::compare(&mut tally, &mut random, size);
    texts::compare(&mut tally, &mut random, size);
    images::compare(&mut tally, &mut random, size);
    groups::compare(&mut tally, &mut random, size);
    choices::compare(&mut tally, &mut random, size);
    widths::compare(&mut tally, &mut random);
    tagless::compare(&mut tally, &mut random, size);
    strict::compare(&mut tally, &mut Random::new(options.seed), size);
    parts::compare(&mut tally, &mut Random::new(options.seed), size);
    if let Some(printer) = &options.printer {
        printing::compare(&mut tally, &mut random, size, printer);
    }
    let complete = tally.report(&size.least);
    let compared = tally.compared();
    println!(
        "compare: {compared} answers, no difference; seed {}, {:.1} s",
        options.seed,
        begun.elapsed().as_secs_f64()
    );
    if compared < size.least.answers {
        println!("compare: fewer than {} answers", size.least.answers);
    }
    complete && compared >= size.least.answers
}
