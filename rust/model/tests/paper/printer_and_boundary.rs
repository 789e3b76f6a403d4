//! The index printer, as a function and as a program, and the 64-bit answers of the C boundary.

use crate::common::{group_without_seed, with_line, WHOLE_CASE_IMAGE, WHOLE_CASE_TEXT};
use model::{answer_build, answer_check, answer_lookup, image_of, list_text, print_index};
use std::io::Write;
use std::process::{Command, Stdio};

/// The answer for a refusal: "its number × 2^32 plus its place".
fn refused(number: u64, place: u64) -> u64 {
    number * 4_294_967_296 + place
}

/// A text of so many bytes, all lines of tag 1, with B = 1 and L = 1 in front.
fn text_of(length: usize) -> Vec<u8> {
    let mut text = list_text(1, 1, &vec![1; length / 11]);
    text.resize(length, b' ');
    text
}

#[test]
fn the_printer_writes_one_line_for_each_refusal() {
    let cases: [(Vec<u8>, &[u8]); 12] = [
        (b"".to_vec(), b"   16    0\n"),
        (b"    1    1".to_vec(), b"   16    0\n"),
        (
            with_line(WHOLE_CASE_TEXT, 2, b"        02\n"),
            b"   16    2\n",
        ),
        (list_text(1, 1, &vec![1; 4_097]), b"    5    0\n"),
        (list_text(0, 0, &[1, 1]), b"    8    0\n"),
        (list_text(513, 1, &[]), b"    8    0\n"),
        (list_text(1, 0, &[1, 1]), b"    4    0\n"),
        (list_text(1, 65_537, &[]), b"    4    0\n"),
        (list_text(1, 1, &[5, 5]), b"    6    1\n"),
        (list_text(1, 1, &[0, 5]), b"   17    0\n"),
        (
            list_text(1, 1, &(1..34).collect::<Vec<u32>>()),
            b"   10    0\n",
        ),
        (list_text(1, 65_536, &group_without_seed()), b"    7    0\n"),
    ];
    for (text, line) in cases {
        assert_eq!(print_index(&text), line);
    }
}

#[test]
fn the_printer_writes_the_image_that_building_gives() {
    let tags: Vec<u32> = (1..=500).map(|k| k * 8_000_009).collect();
    let image = image_of(&tags, 100, 65_536).unwrap();
    assert_eq!(print_index(&list_text(100, 65_536, &tags)), image);
}

#[test]
fn a_text_of_65527_bytes_is_examined_and_one_of_65528_is_not() {
    let mut buffer = vec![0xA5; 60_000];
    // 5,957 lines, all well formed: too many tags.
    let largest = text_of(65_527);
    assert_eq!(print_index(&largest), b"    5    0\n");
    assert_eq!(answer_build(&largest, &mut buffer), refused(5, 0));
    // Examined: its last line is malformed.
    let damaged = with_line(&largest, 5_956, b"          \n");
    assert_eq!(print_index(&damaged), b"   16 5956\n");
    assert_eq!(answer_build(&damaged, &mut buffer), refused(16, 5_956));
    assert_eq!(print_index(&largest[..65_526]), b"   16    0\n");
    // Unexamined: not a multiple of 11, and malformed from the first byte on.
    for text in [text_of(65_528), vec![0; 65_528], text_of(65_538)] {
        assert_eq!(print_index(&text), b"    5    0\n");
        assert_eq!(answer_build(&text, &mut buffer), refused(5, 0));
    }
    assert!(buffer.iter().all(|&byte| byte == 0xA5));
}

#[test]
fn the_building_call_answers_the_length_or_the_refusal() {
    let mut buffer = [0xA5; 70];
    assert_eq!(
        answer_build(WHOLE_CASE_TEXT, &mut buffer[..65]),
        refused(9, 0)
    );
    assert_eq!(buffer, [0xA5; 70]);
    assert_eq!(answer_build(WHOLE_CASE_TEXT, &mut buffer), 66);
    assert_eq!(buffer[..66], *WHOLE_CASE_IMAGE);
    assert_eq!(buffer[66..], [0xA5; 4]);
    // Reading's refusals come before building's.
    let damaged = with_line(&list_text(0, 0, &[5, 5]), 2, b"          \n");
    assert_eq!(answer_build(&damaged, &mut []), refused(16, 2));
    assert_eq!(
        answer_build(&list_text(0, 0, &[5, 5]), &mut []),
        refused(8, 0)
    );
    assert_eq!(
        answer_build(&list_text(1, 1, &[5, 5]), &mut []),
        refused(6, 1)
    );
    assert_eq!(
        answer_build(&list_text(1, 1, &[0, 5]), &mut []),
        refused(17, 0)
    );
    assert_eq!(
        answer_build(&list_text(1, 1, &[1, 3]), &mut [0; 44]),
        refused(7, 0)
    );
}

#[test]
fn the_checking_call_answers_0_or_the_refusal() {
    assert_eq!(answer_check(WHOLE_CASE_IMAGE), 0);
    assert_eq!(answer_check(b""), refused(11, 0));
    let swapped = with_line(WHOLE_CASE_IMAGE, 4, b"         3\n");
    assert_eq!(answer_check(&swapped), refused(15, 2));
    let malformed = with_line(WHOLE_CASE_IMAGE, 5, b"        \r\n\n");
    assert_eq!(answer_check(&malformed), refused(12, 5));
    let unwired = with_line(WHOLE_CASE_IMAGE, 5, b"         0\n");
    assert_eq!(answer_check(&unwired), refused(17, 2));
}

#[test]
fn the_lookup_call_answers_the_number_unknown_or_the_refusal() {
    assert_eq!(
        [2, 1, 3].map(|tag| answer_lookup(WHOLE_CASE_IMAGE, tag)),
        [0, 1, 2]
    );
    assert_eq!(answer_lookup(WHOLE_CASE_IMAGE, 4), 4_294_967_295);
    assert_eq!(answer_lookup(WHOLE_CASE_IMAGE, 0), 4_294_967_295);
    assert_eq!(answer_lookup(&WHOLE_CASE_IMAGE[..65], 4), refused(11, 0));
    let malformed = with_line(WHOLE_CASE_IMAGE, 4, b"          \n");
    assert_eq!(answer_lookup(&malformed, 3), refused(12, 4));
}

#[test]
fn the_program_prints_what_the_function_answers() {
    let texts = [
        WHOLE_CASE_TEXT.to_vec(),
        b"".to_vec(),
        text_of(65_527),
        text_of(65_528),
    ];
    for text in texts {
        let mut program = Command::new(env!("CARGO_BIN_EXE_print_index"))
            .stdin(Stdio::piped())
            .stdout(Stdio::piped())
            .spawn()
            .unwrap();
        program.stdin.take().unwrap().write_all(&text).unwrap();
        let output = program.wait_with_output().unwrap();
        assert!(output.status.success());
        assert_eq!(output.stdout, print_index(&text));
    }
}
