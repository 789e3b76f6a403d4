//! The model's index printer: reads a list text from standard input, writes the image or the
//! refusal line to standard output.

use std::io::{self, Read, Write};

fn main() -> io::Result<()> {
    let mut text = Vec::new();
    io::stdin().read_to_end(&mut text)?;
    io::stdout().write_all(&model::print_index(&text))
}
