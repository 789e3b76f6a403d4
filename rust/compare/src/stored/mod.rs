//! The stored outputs of the program crates, printed again from the model.
//!
//! A program crate `crates/cases_X` runs chosen cases of the proved code, and its file `stdout`
//! is what it must write. Here a function for each program runs the same cases on the model and writes
//! them in the same form. A program that has none here is a fault: a new one takes a function and a
//! row of `PROGRAMS`.

mod boundary;
mod building;
mod exhausted;
mod image;
mod leaf;
mod list;
mod long;
mod parts;
mod placing;
mod planning;
mod printing;
mod strict;
mod tagless;
mod text;

use std::fs;
use std::path::Path;

/// Each program, and what the model writes for its cases.
type Program = (&'static str, fn(&mut Output));

const PROGRAMS: &[Program] = &[
    ("cases_leaf", leaf::write),
    ("cases_text", text::write),
    ("cases_placing", placing::write),
    ("cases_exhausted", exhausted::write),
    ("cases_planning", planning::write),
    ("cases_building", building::write),
    ("cases_image", image::write),
    ("cases_strict", strict::write),
    ("cases_parts", parts::write),
    ("cases_tagless", tagless::built),
    ("cases_tagless_image", tagless::images),
    ("cases_list", list::write),
    ("cases_long", long::write),
    ("cases_printing", printing::write),
    ("cases_boundary", boundary::write),
    ("cases_boundary_text", boundary::from_texts),
];

/// What a program writes, as the crate `report` lets the proved programs write it.
#[derive(Default)]
pub struct Output(Vec<u8>);

impl Output {
    pub fn words(&mut self, words: impl AsRef<[u8]>) {
        self.0.extend_from_slice(words.as_ref());
    }

    pub fn refusal(&mut self, refusal: model::Refusal) {
        self.words(format!("refused {} at {}", refusal.number, refusal.place));
    }

    /// Each number, with a space before it.
    pub fn numbers(&mut self, numbers: &[u32]) {
        for number in numbers {
            self.words(format!(" {number}"));
        }
    }
}

/// What the model writes for the cases of a program.
pub fn written(program: &str) -> Option<Vec<u8>> {
    let (_, write) = PROGRAMS.iter().find(|(name, _)| *name == program)?;
    let mut output = Output::default();
    write(&mut output);
    Some(output.0)
}

/// Compares every stored output below `crates`, and says whether all are what the model writes.
pub fn compare(crates: &Path) -> bool {
    let mut passed = true;
    for &(name, write) in PROGRAMS {
        let mut output = Output::default();
        write(&mut output);
        passed &= match fs::read(crates.join(name).join("stdout")) {
            Ok(stored) => same(name, &stored, &output.0),
            Err(error) => {
                println!("stored: {name} has no stored output: {error}");
                false
            }
        };
    }
    passed &= printer(crates);
    for name in programs_below(crates) {
        if !PROGRAMS.iter().any(|(known, _)| *known == name) {
            println!("stored: difference: {name} has a stored output, and the model writes none");
            passed = false;
        }
    }
    passed
}

/// The stored input and output of the index printer: the whole case of document 01.
fn printer(crates: &Path) -> bool {
    let stored = |file: &str| fs::read(crates.join("printer").join(file));
    match (stored("stdin"), stored("stdout")) {
        (Ok(input), Ok(output)) => same("printer", &output, &model::print_index(&input)),
        _ => {
            println!("stored: the printer has no stored input and output");
            false
        }
    }
}

fn same(name: &str, stored: &[u8], written: &[u8]) -> bool {
    if stored == written {
        let lines = written.iter().filter(|&&byte| byte == b'\n').count();
        println!("stored: {name}: as the model writes it, lines: {lines}");
        return true;
    }
    let ours: Vec<&[u8]> = stored.split(|&byte| byte == b'\n').collect();
    let theirs: Vec<&[u8]> = written.split(|&byte| byte == b'\n').collect();
    let line = (0..ours.len().max(theirs.len()))
        .find(|&line| ours.get(line) != theirs.get(line))
        .unwrap_or(0);
    let shown = |lines: &[&[u8]]| match lines.get(line) {
        Some(line) => format!("\"{}\"", line.escape_ascii()),
        None => "nothing".to_string(),
    };
    println!(
        "stored: difference: {name}, line {}: stored is {}, the model writes {}",
        line + 1,
        shown(&ours),
        shown(&theirs)
    );
    false
}

/// The program crates that run cases and have a stored output.
fn programs_below(crates: &Path) -> Vec<String> {
    let mut names: Vec<String> = fs::read_dir(crates)
        .into_iter()
        .flatten()
        .flatten()
        .filter(|entry| entry.path().join("stdout").is_file())
        .filter_map(|entry| entry.file_name().into_string().ok())
        .filter(|name| name.starts_with("cases_"))
        .collect();
    names.sort();
    names
}
