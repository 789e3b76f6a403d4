//! The cases of `cases_exhausted`: groups refused only after all 65,536 seeds, and one that the last
//! of them serves.

use super::Output;
use crate::groups::{two_on_place_0, without_place_0, LAST_SEED};
use crate::lists::{FIVE_ON_FOUR_PLACES, WITHOUT_PLACE_2};

pub fn write(output: &mut Output) {
    // Of five tags and of 32, each: a place is never reached; every place is touched.
    let cases: [(&[u32], u32); 6] = [
        (&WITHOUT_PLACE_2, 65_536),
        (&FIVE_ON_FOUR_PLACES, 65_536),
        (&without_place_0(), 65_536),
        (&two_on_place_0(), 65_536),
        (&LAST_SEED, 65_536),
        (&LAST_SEED, 65_535),
    ];
    for (tags, limit) in cases {
        match model::place_group(tags, limit) {
            Ok((seed, word)) => output.words(format!("seed {seed}, word {word}")),
            Err(refusal) => output.refusal(refusal),
        }
        output.words("\n");
    }
}
