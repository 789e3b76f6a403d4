//! The bench: times of the proved index beside a plain Rust version and the standard library's containers.
//!
//!     bench                                   all tables; it runs the repository's target/bin/printer
//!     bench --printer PATH                    the same with another printer
//!     bench --slot-lines                      the table of slot lines read by a hit alone
//!     bench --tagless                         the tables of the index without tags alone
//!     bench --strict                          the tables of the strict check alone
//!     bench --parts                           the tables of counting parts alone
//!     bench --plots DIR                       the growth tables, and DIR/growth-*.svg
//!     bench --count CASE VERSION REPETITIONS  one case, for counting instructions; `--count` alone names the cases
//!     bench --print                           the plain version as an index printer

mod cases;
mod count;
mod growth;
mod parts;
mod plain;
mod plot;
mod slot_lines;
mod strict;
mod tables;
mod tagless;
mod timing;
mod versions;

use std::io::{self, Read, Write};
use std::path::Path;
use std::process::ExitCode;

/// Where `tools/printer` leaves the index printer.
const PRINTER: &str = concat!(env!("CARGO_MANIFEST_DIR"), "/../../target/bin/printer");

fn main() -> ExitCode {
    let words: Vec<String> = std::env::args().skip(1).collect();
    let words: Vec<&str> = words.iter().map(String::as_str).collect();
    match words[..] {
        [] | ["--printer", _] => {
            let printer = Path::new(words.last().copied().unwrap_or(PRINTER));
            if !printer.is_file() {
                eprintln!("bench: there is no printer {}", printer.display());
                return ExitCode::FAILURE;
            }
            tables::print(printer);
            growth::print();
        }
        ["--slot-lines"] => slot_lines::print(),
        ["--tagless"] => tagless::print(),
        ["--strict"] => strict::print(),
        ["--parts"] => parts::print(),
        ["--print"] => {
            if let Err(error) = print_index() {
                eprintln!("bench: {error}");
                return ExitCode::FAILURE;
            }
        }
        ["--plots", directory] => {
            if let Err(error) = growth::print().write(Path::new(directory)) {
                eprintln!("bench: {directory}: {error}");
                return ExitCode::FAILURE;
            }
        }
        ["--count"] => count::print_cases(),
        ["--count", case, version, repetitions] => {
            if let Err(error) = count::run(case, version, repetitions) {
                eprintln!("bench: {error}");
                return ExitCode::from(2);
            }
        }
        _ => {
            eprintln!("usage: bench [--printer PATH | --slot-lines | --tagless | --strict | --parts | --plots DIR | --count [CASE VERSION REPETITIONS] | --print]");
            return ExitCode::from(2);
        }
    }
    ExitCode::SUCCESS
}

/// The index printer, in plain Rust: a list text from standard input, an image or one line to standard
/// output.
fn print_index() -> io::Result<()> {
    let mut text = Vec::new();
    io::stdin().lock().read_to_end(&mut text)?;
    io::stdout().lock().write_all(&plain::print(&text))
}
