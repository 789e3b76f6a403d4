//! The cases of `cases_leaf`: place of one tag, at the ranges' ends and beyond them; groups.

use super::Output;

pub fn write(output: &mut Output) {
    for (n, seed, choice, tag) in [
        // Worked values 1 and 3, and the ends of each range; tag 0 too has a place.
        (2, 0, 0, 1),
        (2, 0, 0, 2),
        (2, 1, 0, 1),
        (2, 1, 1, 1),
        (2, 1, 0, 3),
        (2, 1, 1, 3),
        (24, 65_535, 1, u32::MAX),
        (25, 65_535, 1, u32::MAX),
        (31, 65_535, 1, u32::MAX),
        (32, 65_535, 1, u32::MAX),
        (32, 0, 0, 47),
        (32, 0, 1, 47),
        (1, 0, 0, 0),
        (32, 65_535, 1, 0),
        // The refusals 1, 2, 3, and that the first condition met decides.
        (0, 0, 0, 7),
        (33, 0, 0, 7),
        (u32::MAX, u32::MAX, u32::MAX, 7),
        (32, 65_536, 0, 7),
        (32, 65_536, 2, 7),
        (32, 65_535, 2, 7),
    ] {
        output.words(format!(
            "place of {tag} among {n}, seed {seed}, choice {choice}: "
        ));
        match model::place_of_one_tag(n, seed, choice, tag) {
            Ok(place) => output.words(place.to_string()),
            Err(refusal) => output.refusal(refusal),
        }
        output.words("\n");
    }
    for (groups, tag) in [
        (2, 1),
        (2, 2),
        (2, 3),
        (1, u32::MAX),
        (512, u32::MAX),
        (512, 0),
    ] {
        let group = model::hash::group_of(tag, groups);
        output.words(format!("group of {tag} among {groups}: {group}\n"));
    }
}
