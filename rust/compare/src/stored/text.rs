//! The cases of `cases_text`: figures and fields at their edges, the five kinds of line, lines written,
//! and the width of numbers.

use model::image::Image;
use model::line::{figure, line_of_tag, line_of_two, read_figure, read_two, width, LINE};

use super::Output;

pub fn write(output: &mut Output) {
    for (bytes, at, width) in [
        ("    0", 0, 5),
        ("99999", 0, 5),
        ("4294967295", 0, 10),
        ("9999999999", 0, 10),
        ("   19", 2, 3),
        ("   07", 0, 5),
        ("00000", 0, 5),
        ("19   ", 0, 5),
        (" 1 9 ", 0, 5),
        ("   1:", 0, 5),
        ("   1/", 0, 5),
        ("  -19", 0, 5),
        ("     ", 0, 5),
        ("   19", 1, 5),
        ("   19", 9, 1),
        ("", 0, 0),
    ] {
        output.words(format!("field \"{bytes}\" from {at}, {width} columns: "));
        match field(bytes.as_bytes(), at, width) {
            Some(value) => output.words(value.to_string()),
            None => output.words("malformed"),
        }
        output.words("\n");
    }
    for line in [
        " 4096  512\n",
        " 4097  512\n",
        " 4096  513\n",
        "    0    1\n",
        "    0    0\n",
        "99999    0\n",
        "    065535\n",
        "    065536\n",
        "         0\n",
        "4294967295\n",
        "4294967296\n",
        "         7\r",
        "         7",
        "",
    ] {
        one_line(output, line.as_bytes());
    }
    written(output);
    widths(output);
}

/// A field that the bytes do not reach, or that has no column, holds no figure.
fn field(bytes: &[u8], at: usize, width: usize) -> Option<u64> {
    let field = bytes.get(at..at + width)?;
    if field.is_empty() {
        return None;
    }
    read_figure(field)
}

/// One line of text, read as each kind of line. A line that is not whole is malformed.
fn one_line(output: &mut Output, line: &[u8]) {
    let whole = Some(line).filter(|line| line.len() == LINE);
    output.words("line ");
    output.words(line);
    output.words("  image header: ");
    pair(output, whole.and_then(image_header));
    output.words("  group line: ");
    pair(output, whole.and_then(group_line));
    output.words("  slot line: ");
    tag(output, whole.and_then(slot_line));
    output.words("  list header: ");
    pair(output, whole.and_then(list_header));
    output.words("  list line: ");
    tag(output, whole.and_then(list_line));
}

fn pair(output: &mut Output, numbers: Option<(u32, u32)>) {
    match numbers {
        Some((first, second)) => output.words(format!("{first} and {second}\n")),
        None => output.words("malformed\n"),
    }
}

fn tag(output: &mut Output, tag: Option<u32>) {
    match tag {
        Some(tag) => output.words(format!("{tag}\n")),
        None => output.words("malformed\n"),
    }
}

// The model reads lines where they stand, so each is put into an image or a list of its own.

fn image_header(line: &[u8]) -> Option<(u32, u32)> {
    // An image of one line is refused in any case: with 12 if the line is malformed, otherwise for
    // its length, since at least one group line is missing.
    let refusal = Image::open(line).err().expect("no image has one line");
    read_two(line).filter(|_| refusal.number == 11)
}

fn group_line(line: &[u8]) -> Option<(u32, u32)> {
    let image = [&line_of_two(0, 1), line].concat();
    let read = Image::open(&image).ok()?.group_line(0).ok()?;
    Some((read.start as u32, read.seed))
}

fn slot_line(line: &[u8]) -> Option<u32> {
    let image = [&line_of_two(1, 1), &line_of_two(0, 0), line].concat();
    Image::open(&image).ok()?.slot(0).ok()
}

fn list_header(line: &[u8]) -> Option<(u32, u32)> {
    let list = model::read_list(line, 0).ok()?;
    Some((list.groups, list.limit))
}

fn list_line(line: &[u8]) -> Option<u32> {
    let list = model::read_list(&[&line_of_two(1, 1), line].concat(), 1).ok()?;
    list.tags.first().copied()
}

/// Lines written into a buffer that is full of dots.
fn written(output: &mut Output) {
    let mut buffer = [b'.'; 36];
    let mut put = |at: usize, bytes: &[u8]| {
        buffer[at..at + bytes.len()].copy_from_slice(bytes);
        buffer
    };
    put(1, &line_of_two(4_096, 512));
    put(12, &line_of_tag(u32::MAX));
    let lines = put(23, &line_of_tag(0));
    output.words(lines);
    output.words("\n");
    put(0, &figure(0, 5));
    let fields = put(34, &figure(7, 2));
    output.words(fields);
    output.words("\n");
    put(0, &line_of_tag(99_999_999));
    put(11, &line_of_tag(100_000_000));
    let lines = put(22, &line_of_tag(1_234_567_890));
    output.words(lines);
    output.words("\n");
}

/// The first number of each width and the last. Five columns keep the last five digits of a number
/// that has more.
fn widths(output: &mut Output) {
    let ends = (0..=9).map(|power| 10u32.pow(power));
    let ends = ends.flat_map(|first| [first - 1, first]);
    for n in ends.chain([u32::MAX]) {
        let value = u64::from(n);
        let width = width(value);
        output.words(format!("{value} has width {width}: \""));
        let ten = figure(value, 10);
        output.words(&ten[5..]);
        output.words("\", line ");
        output.words(line_of_tag(n));
    }
}
