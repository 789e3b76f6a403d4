//! The index printer, run as a program: a list text on its standard input, an image or a refusal
//! line on its standard output.

use std::io::Write;
use std::path::Path;
use std::process::{Command, Stdio};
use std::thread;

use random::Random;

use crate::groups::LAST_SEED;
use crate::lists::{behind_0, large, structured, tags_of_group, Case, WITHOUT_PLACE_2};
use crate::tally::{differs, shown, Tally};
use crate::texts::damaged;
use crate::{widths, Size};

pub fn compare(tally: &mut Tally, random: &mut Random, size: &Size, printer: &Path) {
    for (kind, text) in texts(random, size) {
        tally.kind(kind);
        let expected = model::print_index(&text);
        let written = match output(printer, &text, text.len().max(1)) {
            Ok(written) => written,
            Err(error) => differs(&format!("the printer {}: {error}", printer.display())),
        };
        if written != expected {
            differs(&format!(
                "printing ({kind}): the printer writes\n{}\nthe model\n{}\nfor {}",
                shown(&written),
                shown(&expected),
                shown(&text)
            ));
        }
        tally.printed(&written);
    }
    // The input may come in pieces of any size.
    tally.kind("input in pieces");
    for piece in [1, 7, 11, 4_096] {
        let text = Case::new(2, 9, [1, 2, 3]).text();
        match output(printer, &text, piece) {
            Ok(written) if written == model::print_index(&text) => tally.printed(&written),
            _ => differs(&format!(
                "printing in pieces of {piece} bytes, {}",
                shown(&text)
            )),
        }
    }
}

fn texts(random: &mut Random, size: &Size) -> Vec<(&'static str, Vec<u8>)> {
    let mut texts = damaged(random);
    let many: Vec<u32> = (1..=4_097).collect();
    for case in [
        Case::new(1, 1, []),
        Case::new(0, 1, [1]),
        Case::new(513, 1, [1]),
        Case::new(1, 0, [1]),
        Case::new(1, 65_537, [1]),
        Case::new(512, 9, behind_0(&many)),
        Case::new(512, 9, many),
        Case::new(1, 1, [5, 5]),
        Case::new(1, 1, [1, 3]),
        Case::new(1, 65_536, WITHOUT_PLACE_2),
        Case::new(4, 65_536, tags_of_group(2, 4, 25)),
        Case::new(4, 65_536, tags_of_group(2, 4, 32)),
        Case::new(4, 65_536, tags_of_group(2, 4, 33)),
        Case::new(1, 65_536, tags_of_group(0, 1, 33)),
        Case::new(1, 65_536, LAST_SEED),
        Case::new(1, 65_535, LAST_SEED),
    ] {
        texts.push(("boundary lists", case.text()));
    }
    // 17 alone, and beside 6, 10, 7, 8 and 4.
    for case in [
        Case::new(1, 1, [0]),
        Case::new(2, 9, [0, 1, 2, 3]),
        Case::new(1, 1, [0, 0]),
        Case::new(1, 1, [0, 5, 5]),
        Case::new(1, 1, [7, 0]),
        Case::new(1, 9, behind_0(&tags_of_group(0, 1, 32))),
        Case::new(2, 9, behind_0(&tags_of_group(1, 2, 33))),
        Case::new(1, 65_536, [0, 1_073_741_824, 3_221_225_472]),
        Case::new(1, 9, behind_0(&WITHOUT_PLACE_2)),
        Case::new(0, 9, [0]),
        Case::new(1, 0, [0]),
    ] {
        texts.push(("lists with tag 0", case.text()));
    }
    texts.extend(
        widths::texts()
            .into_iter()
            .map(|text| ("ends of widths", text)),
    );
    // Several conditions at once.
    for groups in [0, 1, 512, 513, 99_999] {
        for limit in [0, 1, 65_536, 65_537, 99_999] {
            let case = Case::new(groups, limit, [1, 2, 7, 7, 3]);
            texts.push(("ranges of B and L", case.text()));
        }
    }
    for _ in 0..size.printed {
        texts.extend(
            structured(random)
                .into_iter()
                .map(|(kind, case)| (kind, case.text())),
        );
    }
    for _ in 0..size.printed.min(3) {
        texts.push(("large lists", large(random).text()));
    }
    texts
}

/// What the printer writes for one text, given to it in pieces.
fn output(printer: &Path, text: &[u8], piece: usize) -> Result<Vec<u8>, String> {
    let mut child = Command::new(printer)
        .stdin(Stdio::piped())
        .stdout(Stdio::piped())
        .stderr(Stdio::piped())
        .spawn()
        .map_err(|error| error.to_string())?;
    let mut input = child.stdin.take().expect("standard input is a pipe");
    let text = text.to_vec();
    // A printer that has seen enough may stop reading, so a failed write is no fault.
    let writer = thread::spawn(move || {
        for part in text.chunks(piece) {
            if input.write_all(part).and_then(|()| input.flush()).is_err() {
                break;
            }
        }
    });
    let output = child
        .wait_with_output()
        .map_err(|error| error.to_string())?;
    writer.join().expect("writing does not panic");
    if output.status.code().is_none() {
        return Err(format!("it ended by a signal: {}", output.status));
    }
    if !output.stderr.is_empty() {
        return Err(format!("it complains: {}", output.stderr.escape_ascii()));
    }
    Ok(output.stdout)
}
