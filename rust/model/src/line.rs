//! Lines of eleven bytes and the figures in their fields: the first paragraph of "The image".

/// "Every line is 11 bytes: ten columns and a line feed (byte 10)."
pub const LINE: usize = 11;

/// "The least width, 1 at least, for which the number is below 10 to the power of that width."
pub fn width(value: u64) -> usize {
    let mut width = 1;
    while value >= 10u64.pow(width) {
        width += 1;
    }
    width as usize
}

/// "Each field is a base-ten figure, right-justified with spaces, without needless leading zeros;
/// zero is one digit 0."
///
/// Panics if the value has more digits than columns.
pub fn figure(value: u64, columns: usize) -> Vec<u8> {
    let width = width(value);
    assert!(width <= columns, "{value} needs more columns");
    let spaces = (width..columns).map(|_| b' ');
    let digits = (0..width as u32)
        .rev()
        .map(|place| b'0' + (value / 10u64.pow(place) % 10) as u8);
    spaces.chain(digits).collect()
}

/// The value of a field of at most ten columns, or nothing if the field is malformed.
///
/// A field is well formed exactly if it is the figure of some value, and that value can only be
/// the one that its digits spell. So whatever byte is not a digit may count as 0 here: the
/// comparison with the figure decides. A blank field spells 0 and is not the figure of 0.
pub fn read_figure(field: &[u8]) -> Option<u64> {
    let spelt = field.iter().fold(0, |value, &byte| {
        let digit = if byte.is_ascii_digit() {
            byte - b'0'
        } else {
            0
        };
        10 * value + u64::from(digit)
    });
    (figure(spelt, field.len()) == field).then_some(spelt)
}

/// A line of two fields of five columns: line 0, a group line, or the printer's refusal.
pub fn line_of_two(first: u64, second: u64) -> Vec<u8> {
    [figure(first, 5), figure(second, 5), b"\n".to_vec()].concat()
}

/// A line of one tag in ten columns.
pub fn line_of_tag(tag: u32) -> Vec<u8> {
    [figure(u64::from(tag), 10), b"\n".to_vec()].concat()
}

/// Line `index` of a text that has so many lines.
pub fn line(text: &[u8], index: usize) -> &[u8] {
    &text[LINE * index..LINE * (index + 1)]
}

/// Both fields of a line of five and five columns, each 0 to 99,999; nothing if malformed.
pub fn read_two(line: &[u8]) -> Option<(u32, u32)> {
    if line[10] != b'\n' {
        return None;
    }
    let first = read_figure(&line[..5])?;
    let second = read_figure(&line[5..10])?;
    Some((first as u32, second as u32))
}

/// The tag of a line of ten columns; nothing if malformed. "a tag fits 32 bits"
pub fn read_tag(line: &[u8]) -> Option<u32> {
    if line[10] != b'\n' {
        return None;
    }
    u32::try_from(read_figure(&line[..10])?).ok()
}
