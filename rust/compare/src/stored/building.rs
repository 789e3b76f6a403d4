//! The cases of `cases_building`: worked values, images byte by byte with what checking and lookup
//! say of them, each refusal, which of two comes first, and tag 0.

use model::Found;

use super::Output;
use crate::groups::{CLOSE_25, CLOSE_32};
use crate::lists::{tags_of_group, WITHOUT_PLACE_2};

/// What the buffer holds before building.
const SIZE: usize = 6_000;

pub fn write(output: &mut Output) {
    // 33 tags in one group; 33 in group 1, beside a group 0 that seed 0 does not serve.
    let close = [&CLOSE_32[..], &[48]].concat();
    let mut one_large = [&[4, 12][..], &tags_of_group(1, 2, 33)].concat();
    one_large.sort_unstable();
    let from_0: Vec<u32> = (0..33).collect();
    let cases: [(&[u32], u32, u32, usize); 53] = [
        (&[1, 2, 3], 2, 9, 65),
        (&[1, 2, 3], 2, 9, 66),
        (&[1, 2, 3], 2, 9, 80),
        (&[], 1, 1, 22),
        (&[], 3, 65_536, 50),
        (&[1, 2], 1, 1, 44),
        (&[1, 3], 1, 2, 44),
        (&[13, 2_147_483_648], 1, 1, 44),
        (&[13, 1_073_741_824], 1, 1, 44),
        (&[599, 1_193], 1, 1, 44),
        (&[1, 908, u32::MAX], 512, 1, 5_676),
        (&[2, u32::MAX], 5, 1, 100),
        (&[14, 337_764_173, 964_266_638, 2_787_973_142], 1, 9, 90),
        (
            &[10, 20, 30, 40, 50, 60, 70, 80, 90, 100, 110, 120, 130, 140],
            3,
            65_536,
            300,
        ),
        (
            &[3, 7, 15, 31, 63, 127, 255, 511, 1_023, 2_047, 4_095, 8_191],
            2,
            999,
            300,
        ),
        (&[1, 2, 3], 0, 9, 66),
        (&[1, 2, 3], 513, 9, 6_000),
        (&[1, 2, 3], u32::MAX, 0, 600),
        (&[1, 2, 3], 2, 0, 66),
        (&[1, 2, 3], 2, 65_536, 66),
        (&[1, 2, 3], 2, 65_537, 66),
        (&[3, 2, 1], 2, 0, 0),
        (&[1, 2, 2], 2, 9, 66),
        (&[5, 5], 1, 1, 44),
        (&[1, 2, 3, 0], 2, 9, 0),
        (&[1, 3], 1, 1, 43),
        (&[1, 3], 1, 1, 44),
        (&[1, 3], 1, 2, 43),
        (&WITHOUT_PLACE_2, 1, 200, 77),
        (&[5, 8, 13, 16], 3, 1, 88),
        (&[17, 23, 34, 40, 42, 45, 48, 51, 57], 3, 2, 143),
        (&[17, 23, 34, 40, 42, 45, 48, 51, 57], 3, 7, 143),
        (&[18, 20, 27, 34, 36, 40, 41, 43, 50], 3, 1, 143),
        (&CLOSE_25, 1, 1, 400),
        (&close[..32], 1, 1, 400),
        (&close, 1, 1, 400),
        (&close, 1, 1, 384),
        (&close, 1, 1, 385),
        (&[1, 2, 3, 1, 2], 1, 1, 66),
        (&one_large, 2, 1, 600),
        // 17: alone, before 10, 7 and 9, behind 8, 4 and 6.
        (&[0], 1, 1, 33),
        (&[0, 2_147_483_648], 1, 1, 44),
        (&[0, 1_073_741_824], 1, 1, 44),
        (&[0, 1, 2], 2, 9, 66),
        (&[0, 1, 2], 2, 9, 65),
        (&from_0, 1, 9, 600),
        (&[0, 1_073_741_824, 3_221_225_472], 1, 9, 55),
        (&[0, 1, 3], 2, 1, 66),
        (&[0, 1, 2], 513, 9, 66),
        (&[0, 1, 2], 2, 0, 66),
        (&[0, 1, 2], 2, 65_537, 66),
        (&[0, 0], 1, 1, 44),
        (&[0, 2, 1], 2, 9, 0),
    ];
    for (tags, groups, limit, room) in cases {
        output.words("tags");
        output.numbers(tags);
        output.words(format!(", B {groups}, L {limit}, room {room}: "));
        let mut buffer = [b'#'; SIZE];
        match model::build(tags, groups, limit, &mut buffer[..room]) {
            Ok(size) => {
                output.words(format!("{size} bytes\n"));
                output.words(&buffer[..size + 9]);
                output.words("\n");
                examine(output, &buffer[..size], tags);
            }
            Err(refusal) => {
                output.refusal(refusal);
                output.words("\n");
                output.words(&buffer[..9]);
                output.words("\n");
            }
        }
    }
}

/// What checking says of an image, and lookups of its tags and of one more.
fn examine(output: &mut Output, image: &[u8], tags: &[u32]) {
    output.words("  ");
    match model::check(image) {
        Ok(()) => output.words("accepted"),
        Err(refusal) => output.refusal(refusal),
    }
    output.words("\n");
    for &tag in tags.iter().chain(&[77]) {
        output.words(format!("  {tag}: "));
        match model::lookup(image, tag) {
            Ok(Found::Number(number)) => output.words(format!("{number}")),
            Ok(Found::Unknown) => output.words("unknown"),
            Err(refusal) => output.refusal(refusal),
        }
        output.words("\n");
    }
}
