//! Reading list texts: what is read, and each way in which a line can be damaged.

use crate::common::{refusal, with_line, WHOLE_CASE_TEXT};
use model::{list_text, read_list, List};

/// Lines that hold no tag, each with its fault.
pub const DAMAGED_TAG_LINES: [(&str, &[u8; 11]); 20] = [
    ("blank", b"          \n"),
    ("tab for a space", b"\t        1\n"),
    ("tab before the digit", b"        \t1\n"),
    ("carriage return for the line feed", b"         1\r"),
    ("carriage return before the line feed", b"        1\r\n"),
    ("no line feed", b"         1 "),
    ("line feed too early", b"        1\n\n"),
    ("plus sign", b"        +1\n"),
    ("minus sign", b"        -1\n"),
    ("leading zero", b"        01\n"),
    ("two zeros", b"        00\n"),
    ("ten digits with a leading zero", b"0000000001\n"),
    ("left-justified", b"1         \n"),
    ("one space after the figure", b"        1 \n"),
    ("space inside the figure", b"       1 2\n"),
    ("one above 32 bits", b"4294967296\n"),
    ("the largest ten digits", b"9999999999\n"),
    ("hexadecimal", b"       0x1\n"),
    (
        "zero bytes for spaces",
        b"\x00\x00\x00\x00\x00\x00\x00\x00\x001\n",
    ),
    ("a digit with its high bit set", b"         \xB1\n"),
];

/// Lines that do not hold two fields of five columns, each with its fault.
pub const DAMAGED_PAIR_LINES: [(&str, &[u8; 11]); 19] = [
    ("blank", b"          \n"),
    ("first field blank", b"         9\n"),
    ("second field blank", b"    2     \n"),
    ("tab for a space", b"\t   2    9\n"),
    ("carriage return for the line feed", b"    2    9\r"),
    ("carriage return before the line feed", b"    2   9\r\n"),
    ("no line feed", b"    2    9 "),
    ("plus sign", b"   +2    9\n"),
    ("minus sign", b"    2   -9\n"),
    ("leading zero in the first field", b"   02    9\n"),
    ("leading zero in the second field", b"    2   09\n"),
    ("two zeros", b"   00    9\n"),
    ("left-justified", b"2    9    \n"),
    ("one figure across both fields", b"   1203456\n"),
    ("space inside a figure", b"  2 2    9\n"),
    ("decimal point", b"  2.0    9\n"),
    ("letter", b"    B    9\n"),
    ("zero bytes for spaces", b"\x00\x00\x00\x002    9\n"),
    ("a digit with its high bit set", b"    \xB2    9\n"),
];

#[test]
fn a_list_text_is_read_with_its_tags_in_their_order() {
    let list = |groups, limit, tags: &[u32]| {
        Ok(List {
            groups,
            limit,
            tags: tags.to_vec(),
        })
    };
    assert_eq!(read_list(WHOLE_CASE_TEXT, 3), list(2, 9, &[1, 2, 3]));
    assert_eq!(read_list(b"    0    0\n", 0), list(0, 0, &[]));
    // Legal at this stage: any B and L of five columns, any order of the tags, and tag 0.
    let text = b"9999999999\n4294967295\n         0\n         0\n";
    assert_eq!(
        read_list(text, 4_096),
        list(99_999, 99_999, &[u32::MAX, 0, 0])
    );
}

#[test]
fn a_written_list_text_reads_back() {
    let tags: Vec<u32> = (0..32).map(|bit| u32::MAX >> bit).collect();
    let text = list_text(512, 65_536, &tags);
    assert_eq!(text.len(), 11 * 33);
    let list = read_list(&text, 32).unwrap();
    assert_eq!((list.groups, list.limit, list.tags), (512, 65_536, tags));
    assert_eq!(list_text(2, 9, &[1, 2, 3]), WHOLE_CASE_TEXT);
}

#[test]
fn a_text_that_is_short_or_cut_is_refused_with_16_at_place_0() {
    for length in 0..WHOLE_CASE_TEXT.len() {
        let answer = read_list(&WHOLE_CASE_TEXT[..length], 4_096);
        if length > 0 && length % 11 == 0 {
            assert_eq!(answer.unwrap().tags.len(), length / 11 - 1);
        } else {
            assert_eq!(answer, Err(refusal(16, 0)));
        }
    }
    // The length decides before any line is looked at.
    let damaged = with_line(WHOLE_CASE_TEXT, 2, b"          \n");
    assert_eq!(read_list(&damaged[..43], 4_096), Err(refusal(16, 0)));
}

#[test]
fn a_byte_lost_from_one_line_and_added_to_the_next_is_found_at_the_first() {
    let text = b"    2    9\n        1\n          2\n         3\n";
    assert_eq!(text.len(), 44);
    assert_eq!(read_list(text, 4_096), Err(refusal(16, 1)));
}

#[test]
fn each_damage_of_a_tag_line_is_refused_with_16_at_that_line() {
    for (fault, line) in DAMAGED_TAG_LINES {
        for index in 1..4 {
            let text = with_line(WHOLE_CASE_TEXT, index, line);
            let expected = Err(refusal(16, index as u64));
            assert_eq!(read_list(&text, 4_096), expected, "{fault}");
        }
    }
}

#[test]
fn each_damage_of_line_0_is_refused_with_16_at_place_0() {
    for (fault, line) in DAMAGED_PAIR_LINES {
        let text = with_line(WHOLE_CASE_TEXT, 0, line);
        assert_eq!(read_list(&text, 4_096), Err(refusal(16, 0)), "{fault}");
    }
}

#[test]
fn the_first_malformed_line_is_named() {
    let text = with_line(WHOLE_CASE_TEXT, 3, b"4294967296\n");
    let text = with_line(&text, 2, b"        01\n");
    assert_eq!(read_list(&text, 4_096), Err(refusal(16, 2)));
    let text = with_line(&text, 0, b"          \n");
    assert_eq!(read_list(&text, 4_096), Err(refusal(16, 0)));
}

#[test]
fn reading_refuses_with_16_then_5_then_9() {
    let tags: Vec<u32> = (0..4_097).collect();
    let text = list_text(1, 1, &tags);
    let damaged = with_line(&text, 4_097, b"          \n");
    assert_eq!(read_list(&damaged, 0), Err(refusal(16, 4_097)));
    assert_eq!(read_list(&text, 0), Err(refusal(5, 0)));
    assert_eq!(read_list(&text, 5_000), Err(refusal(5, 0)));
    let text = list_text(1, 1, &tags[..4_096]);
    assert_eq!(read_list(&text, 4_095), Err(refusal(9, 0)));
    assert_eq!(read_list(&text, 4_096).unwrap().tags.len(), 4_096);
    assert_eq!(read_list(WHOLE_CASE_TEXT, 2), Err(refusal(9, 0)));
    assert_eq!(read_list(WHOLE_CASE_TEXT, 3).unwrap().tags.len(), 3);
}
