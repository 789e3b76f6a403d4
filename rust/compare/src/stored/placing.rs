//! The cases of `cases_placing`: the traps, the seed limit, sizes, groups of 32 tags, each refusal,
//! and tag 0.

use super::Output;
use crate::groups::{
    ALL_KINDS_OF_BITS, CLOSE_32, FEWEST_SECOND_PLACES, LOLLIPOP, PATH, PATH_TO_BE_MOVED_ALONG,
};

pub fn write(output: &mut Output) {
    // 24 tags and 25: one less than each power of two from 4 on. 32 pass to the search, 33 do not.
    let powers: Vec<u32> = (2..27).map(|power| (1 << power) - 1).collect();
    let close = [&CLOSE_32[..], &[48]].concat();
    let from_0: Vec<u32> = (0..33).collect();
    let cases: [(&[u32], u32); 41] = [
        (&[13, 57, 61], 9),
        (&[81, 134, 298, 325], 1),
        (&[14, 337_764_173, 964_266_638, 2_787_973_142], 9),
        (&[599, 1_193], 1),
        (&[1, 2, 12], 1),
        (&[1, 5, 6, 11], 1),
        (&[24, 1_445_023_297], 1),
        (&[6, 8, 33, 37, 39, 55], 99),
        (&[61, 152], 1),
        (&[1, 3], 0),
        (&[1, 3], 1),
        (&[1, 3], 2),
        (&[1, 3], 65_536),
        (&[1, 3], 65_537),
        (&[1, 3], u32::MAX),
        (&powers[..24], 65_536),
        (&powers, 65_536),
        (&close[..32], 1),
        (&close, 65_536),
        (&[], 1),
        (&[u32::MAX], 1),
        (&[5, 5], 1),
        (&[9, 5], 1),
        (&[1, 2, 3, 2, 1], 0),
        (&[1, 2, 3, 2, 1], 1),
        // Groups of 32 that seed 0 serves: 31 evictions, 61, all kinds of bits, and what decides
        // between sequences.
        (&PATH, 1),
        (&PATH_TO_BE_MOVED_ALONG, 1),
        (&LOLLIPOP, 1),
        (&ALL_KINDS_OF_BITS, 1),
        (&FEWEST_SECOND_PLACES, 1),
        // 17: alone, before 7, behind 4, 5 and 6.
        (&[0], 1),
        (&[0, 2_147_483_648], 1),
        (&[0, 1_073_741_824], 1),
        (&[0, 1_073_741_824, 3_221_225_472], 1),
        (&[0, 3], 0),
        (&[0, 3], 65_537),
        (&from_0, 65_536),
        (&from_0[..32], 65_536),
        (&[0, 0], 1),
        (&[0, 7, 7], 9),
        (&[7, 0], 9),
    ];
    for (tags, limit) in cases {
        output.words("tags");
        output.numbers(tags);
        output.words(format!(", L {limit}: "));
        match model::place_group(tags, limit) {
            Ok((seed, word)) => output.words(format!("seed {seed}, word {word}")),
            Err(refusal) => output.refusal(refusal),
        }
        output.words("\n");
    }
}
