//! The cases of `cases_tagless`: images without tags built byte by byte, with what checking and lookup
//! say of them, each refusal and which of two comes first; and those of `cases_tagless_image`: small
//! images, whole and damaged.

use model::tagless;
use model::Found;

use super::Output;
use crate::lists::{tags_of_group, WITHOUT_PLACE_2};
use crate::tagless::{CLOSE_32_WITH_A_WORD, ROWS_THAT_CANCEL_OUT, SERVED_WITHOUT_A_WORD};

/// What the buffer holds before building.
const SIZE: usize = 1_200;

/// What `cases_tagless` writes.
pub fn built(output: &mut Output) {
    // 33 tags in one group; 33 in group 1, beside a group 0 that seed 0 does not serve.
    let from_1: Vec<u32> = (1..=33).collect();
    let from_0: Vec<u32> = (0..33).collect();
    let mut one_large = [&[4, 12][..], &tags_of_group(1, 2, 33)].concat();
    one_large.sort_unstable();
    let multiples = |of: &[u32], shift: u32| of.iter().map(|k| k << shift).collect::<Vec<u32>>();
    let cases: [(&[u32], u32, u32, usize); 48] = [
        (&[1, 2, 3], 2, 9, 52),
        (&[1, 2, 3], 2, 9, 53),
        (&[1, 2, 3], 2, 9, 60),
        (&[], 1, 1, 32),
        (&[], 3, 65_536, 80),
        (&[7], 1, 1, 32),
        (&[1, 2], 1, 1, 32),
        (&[1, 3], 1, 2, 32),
        (&[1, 3], 2, 9, 53),
        (&[13, 2_147_483_648], 1, 1, 32),
        (&[599, 1_193], 1, 1, 32),
        (&[13, 57, 61], 1, 9, 32),
        (&[14, 337_764_173, 964_266_638, 2_787_973_142], 1, 9, 32),
        (&[2, u32::MAX], 50, 1, 1_061),
        (
            &[10, 20, 30, 40, 50, 60, 70, 80, 90, 100, 110, 120, 130, 140],
            3,
            99,
            80,
        ),
        (
            &[3, 7, 15, 31, 63, 127, 255, 511, 1_023, 2_047, 4_095, 8_191],
            2,
            99,
            60,
        ),
        // Seeds that serve and have no word; multiples of 2^29, 2^28 and 2^26; 32 tags.
        (&ROWS_THAT_CANCEL_OUT, 1, 1, 32),
        (&ROWS_THAT_CANCEL_OUT, 1, 2, 32),
        (&ROWS_THAT_CANCEL_OUT, 1, 3, 32),
        (&SERVED_WITHOUT_A_WORD, 1, 9, 32),
        (&multiples(&[1, 2, 3, 4], 29), 1, 1, 32),
        (&multiples(&[1, 6, 7, 10, 13, 15], 28), 1, 3, 32),
        (&multiples(&[1, 4, 5, 6, 8, 9, 13, 14], 28), 1, 2, 32),
        (
            &multiples(&[9, 20, 25, 26, 29, 31, 45, 48, 58, 61], 26),
            1,
            3,
            32,
        ),
        (&CLOSE_32_WITH_A_WORD, 1, 2, 32),
        (&CLOSE_32_WITH_A_WORD, 1, 3, 32),
        // The refusals, and which of two comes first.
        (&[1, 2, 3], 0, 9, 53),
        (&[1, 2, 3], 513, 9, 1_200),
        (&[1, 2, 3], u32::MAX, 0, 53),
        (&[1, 2, 3], 2, 0, 53),
        (&[1, 2, 3], 2, 65_537, 53),
        (&[3, 2, 1], 2, 0, 0),
        (&[1, 2, 2], 2, 9, 53),
        (&[1, 2, 3, 0], 2, 9, 0),
        (&[0], 1, 1, 32),
        (&[0, 1, 3], 1, 1, 31),
        (&[0, 0], 1, 1, 32),
        (&from_0, 1, 9, 32),
        (&[1, 3], 1, 1, 31),
        (&[1, 3], 1, 1, 32),
        (&from_1, 1, 1, 31),
        (&from_1, 1, 1, 32),
        (&one_large, 2, 1, 53),
        (&one_large[..20], 2, 1, 53),
        (&WITHOUT_PLACE_2, 1, 99, 32),
        (&[5, 8, 13, 16], 3, 1, 74),
        (&[1, 2, 3], 2, 1, 53),
        (&[17, 23, 34, 40, 42, 45, 48, 51, 57], 3, 2, 74),
    ];
    for (tags, groups, limit, room) in cases {
        output.words("tags");
        output.numbers(tags);
        output.words(format!(", B {groups}, L {limit}, room {room}: "));
        let mut buffer = [b'#'; SIZE];
        match tagless::build(tags, groups, limit, &mut buffer[..room]) {
            Ok(size) => {
                output.words(format!("{size} bytes\n"));
                output.words(&buffer[..size + 9]);
                output.words("\n");
                examine(output, &buffer[..size], tags);
            }
            Err(refusal) => {
                output.refusal(refusal);
                output.words("\n");
                output.words(&buffer[..9]);
                output.words("\n");
            }
        }
    }
}

/// What checking says of an image, and lookups of its tags, of 0 and of a stranger.
fn examine(output: &mut Output, image: &[u8], tags: &[u32]) {
    output.words("  ");
    check(output, image);
    for &tag in tags.iter().chain(&[0, 77]) {
        output.words(format!("  {tag}: "));
        look_up(output, image, tag);
    }
}

fn check(output: &mut Output, image: &[u8]) {
    match tagless::check(image) {
        Ok(()) => output.words("accepted"),
        Err(refusal) => output.refusal(refusal),
    }
    output.words("\n");
}

fn look_up(output: &mut Output, image: &[u8], tag: u32) {
    match tagless::lookup(image, tag) {
        Ok(Found::Number(number)) => output.words(number.to_string()),
        Ok(Found::Unknown) => output.words("unknown"),
        Err(refusal) => output.refusal(refusal),
    }
    output.words("\n");
}

/// What `cases_tagless_image` writes.
pub fn images(output: &mut Output) {
    let cases = [
        (
            "whole case",
            "    3    2\n    0    0         0\n    1    1         1\n",
        ),
        (
            "another word",
            "    3    2\n    0    0         0\n    1    14294967295\n",
        ),
        (
            "the last seed",
            "    3    2\n    0    0         0\n    165535  12345678\n",
        ),
        ("empty list", "    0    1\n    0    0         0\n"),
        (
            "empty groups with seeds and words",
            "    0    2\n    0    5         9\n    0655354294967295\n",
        ),
        ("group of 32", "   32    1\n    0   141234567890\n"),
        ("no bytes", ""),
        ("ten bytes", "    3    2"),
        (
            "header with B = 0",
            "    3    0\n    0    0         0\n    1    1         1\n",
        ),
        (
            "header with N = 4097",
            " 4097    2\n    0    0         0\n    1    1         1\n",
        ),
        (
            "one byte short",
            "    3    2\n    0    0         0\n    1    1         1",
        ),
        (
            "one line more",
            "    3    2\n    0    0         0\n    1    1         1\n    3    0         0\n",
        ),
        (
            "an image with tags",
            "    3    2\n    0    0\n    1    1\n         2\n         1\n         3\n",
        ),
        (
            "own line malformed",
            "    3    2\n    0   00         0\n    1    1         1\n",
        ),
        (
            "next line malformed",
            "    3    2\n    0    0         0\n    1              1\n",
        ),
        (
            "word 4294967296",
            "    3    2\n    0    04294967296\n    1    1         1\n",
        ),
        (
            "next word 4294967296",
            "    3    2\n    0    0         0\n    1    14294967296\n",
        ),
        (
            "next word 9999999999",
            "    3    2\n    0    0         0\n    1    19999999999\n",
        ),
        (
            "blank word",
            "    3    2\n    0    0         0\n    1    1          \n",
        ),
        (
            "word with a needless zero",
            "    3    2\n    0    0        00\n    1    1         1\n",
        ),
        (
            "seed 65536",
            "    3    2\n    0    0         0\n    165536         1\n",
        ),
        (
            "two lines malformed",
            "    3    2\n    0    0         x\n    1    1         1\r",
        ),
        (
            "first start 1",
            "    3    2\n    1    0         0\n    1    1         1\n",
        ),
        (
            "start past N",
            "    3    2\n    0    0         0\n    4    1         1\n",
        ),
        (
            "start 99999",
            "    3    2\n    0    0         0\n99999    1         1\n",
        ),
        (
            "starts that fall",
            "    3    3\n    0    0         0\n    3    1         1\n    2    0         0\n",
        ),
        ("group of 33", "   33    1\n    0    0         0\n"),
        (
            "malformed behind a faulty group",
            "    3    2\n    1    0         0\n    1    14294967296\n",
        ),
        (
            "starts moved",
            "    3    2\n    0    0         0\n    2    1         1\n",
        ),
        (
            "first group empty",
            "    3    2\n    0    0         0\n    0    1         1\n",
        ),
        (
            "last group empty",
            "    3    2\n    0    0         0\n    3    1         1\n",
        ),
    ];
    for (name, image) in cases {
        output.words(format!("{name}: "));
        check(output, image.as_bytes());
        for tag in 0..5 {
            output.words(format!("  lookup of {tag}: "));
            look_up(output, image.as_bytes(), tag);
        }
    }
}
