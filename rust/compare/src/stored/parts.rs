//! The cases of `cases_parts`: counting parts.

use super::Output;
use crate::groups::{ALL_KINDS_OF_BITS, PATH};

/// Under seed 8 each has equal places, from 31 down to 0.
const ALONE: [u32; 32] = [
    949, 1364, 2351, 2690, 4664, 6638, 8612, 10586, 12560, 12937, 13924, 14301, 14678, 15665,
    16042, 16419, 17368, 17783, 18770, 19109, 19524, 20473, 20850, 22824, 24798, 26772, 28746,
    29123, 30110, 30487, 30864, 31851,
];

pub fn write(output: &mut Output) {
    let ascending: Vec<u32> = (1..=33).collect();
    let from_0 = [&[0], &ascending[1..]].concat();
    let cases: [(&[u32], u32); 48] = [
        // Worked values 1 to 3, the empty group, one tag.
        (&[1, 2], 0),
        (&[1, 3], 0),
        (&[1, 3], 1),
        (&[], 0),
        (&[], 65_535),
        (&[4_294_967_295], 65_535),
        // Untouched places.
        (&[10, 18, 20], 0),
        (&[1, 35, 37, 46], 1),
        (&[9, 21, 33, 55], 1),
        // Tags with equal places.
        (&[5, 17, 21], 0),
        (&[5, 9, 13], 0),
        (&[1, 16, 26, 30], 1),
        (&[5, 10, 14], 0),
        // Tags with the same pair of places.
        (&[599, 1_193], 0),
        (&[1, 5, 14, 18], 0),
        (&[1, 16, 35, 52], 1),
        // Each part by itself.
        (&[1, 81, 83, 90, 128, 141], 1),
        (&[1, 81, 83, 143, 183, 196], 1),
        (&[34, 56, 59, 94, 107], 1),
        // Parts that are joined.
        (&[3, 35, 52, 68], 1),
        (&[10, 35, 52, 68], 1),
        (&[2, 16, 20, 21], 1),
        (&[1, 6, 15, 21], 1),
        (&[47, 98, 149, 221, 259, 276, 289, 377], 2),
        (&[97, 203, 224, 271, 309, 351, 364, 466], 2),
        (&[12, 24, 57, 78, 111, 123], 1),
        // 32 tags, and 33.
        (&PATH, 0),
        (&ALL_KINDS_OF_BITS, 0),
        (&ALONE, 8),
        (&ascending[..32], 0),
        (&ascending[..31], 65_535),
        (&ascending, 65_535),
        (&ascending, 65_536),
        (&from_0, 0),
        (&from_0[..32], 0),
        // Seeds.
        (&[1, 3], 65_535),
        (&[1, 3], 65_536),
        (&[], 65_536),
        // Refusals, one and two.
        (&[5, 5], 0),
        (&[3, 9, 5, 4], 0),
        (&[0], 0),
        (&[0, 13], 65_535),
        (&[5, 5], 65_536),
        (&[0, 13], 65_536),
        (&[0, 0], 0),
        (&[0, 13, 13], 0),
        (&[5; 33], 0),
        (&[5; 32], 0),
    ];
    for (tags, seed) in cases {
        count(output, tags, seed);
    }
}

fn count(output: &mut Output, tags: &[u32], seed: u32) {
    output.words("tags");
    output.numbers(tags);
    output.words(format!(", seed {seed}: "));
    match model::count_parts(tags, seed) {
        Ok(parts) => {
            let serves = if parts.serves {
                "serves"
            } else {
                "does not serve"
            };
            output.words(format!("{serves}, parts {}", parts.number));
        }
        Err(refusal) => output.refusal(refusal),
    }
    output.words("\n");
}
