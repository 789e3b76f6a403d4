//! The cases of `cases_strict`: checking and the strict check, on small images as building writes them,
//! with another seed or sequence that checking accepts as well, and with a refusal of checking and 19 due
//! at once.

use model::line::{line_of_tag, LINE};

use super::Output;
use crate::groups::CLOSE_32;

/// The image of eight tags in six groups: 2 and 23, none, 16, 37 and 39, 7, 51 and 55, none.
fn six_groups() -> Vec<u8> {
    model::image_of(&[2, 7, 16, 23, 37, 39, 51, 55], 6, 7).expect("seed 6 is the greatest")
}

/// The image of six groups with texts put over its bytes, each from a line on.
fn edited(edits: &[(usize, &str)]) -> Vec<u8> {
    let mut image = six_groups();
    for &(line, text) in edits {
        image[LINE * line..LINE * line + text.len()].copy_from_slice(text.as_bytes());
    }
    image
}

/// A case: its name, and its image.
type Case = (&'static str, Vec<u8>);

pub fn write(output: &mut Output) {
    for (name, image) in [
        built(),
        seeds(),
        sequences(),
        several(),
        exchanged(),
        due_at_once(),
        full(),
    ]
    .concat()
    {
        output.words(format!("{name}: "));
        said(output, model::check(&image));
        output.words(", strictly ");
        said(output, model::strict_check(&image));
        output.words("\n");
    }
}

fn said(output: &mut Output, answer: Result<(), model::Refusal>) {
    match answer {
        Ok(()) => output.words("accepted"),
        Err(refusal) => output.refusal(refusal),
    }
}

/// What building writes: the whole case, empty lists, small limits, the image of six groups, and two
/// edited ones that are other lists'.
fn built() -> Vec<Case> {
    vec![
        (
            "whole case",
            b"    3    2\n    0    0\n    1    1\n         2\n         1\n         3\n".to_vec(),
        ),
        ("empty list", b"    0    1\n    0    0\n".to_vec()),
        (
            "empty list in three groups",
            b"    0    3\n    0    0\n    0    0\n    0    0\n".to_vec(),
        ),
        (
            "built with L = 1",
            b"    1    1\n    0    0\n        13\n".to_vec(),
        ),
        (
            "built with L = 2",
            b"    2    1\n    0    1\n         1\n         3\n".to_vec(),
        ),
        ("six groups, built with L = 7", edited(&[])),
        (
            "tag 7 of group 3 is 28: another list",
            edited(&[(12, "        28\n")]),
        ),
        (
            "tag 37 of group 2 is 58: another list",
            edited(&[(10, "        58\n")]),
        ),
        (
            "tags that have one place each",
            b"    2    1\n    0    0\n        13\n2147483648\n".to_vec(),
        ),
    ]
}

/// Another seed that serves too: of the first group, of one with one tag, of the last with tags, and
/// of empty groups.
fn seeds() -> Vec<Case> {
    vec![
        (
            "whole case, seed 7 in group 0",
            b"    3    2\n    0    7\n    1    1\n         2\n         1\n         3\n".to_vec(),
        ),
        (
            "whole case, group 1 under seed 2",
            b"    3    2\n    0    0\n    1    2\n         2\n         3\n         1\n".to_vec(),
        ),
        (
            "seed 2 where seed 1 serves",
            b"    2    1\n    0    2\n         3\n         1\n".to_vec(),
        ),
        (
            "group 0 under seed 2",
            edited(&[(1, "    0    2\n"), (7, "        23\n         2\n")]),
        ),
        ("group 3 with seed 1", edited(&[(4, "    5    1\n")])),
        ("group 4 under seed 7", edited(&[(5, "    6    7\n")])),
        ("group 4 under seed 65535", edited(&[(5, "    665535\n")])),
        (
            "empty list with seed 1",
            b"    0    1\n    0    1\n".to_vec(),
        ),
        (
            "empty list with seed 65535 in the last group",
            b"    0    3\n    0    0\n    0    0\n    065535\n".to_vec(),
        ),
        ("empty group 1 with seed 1", edited(&[(2, "    2    1\n")])),
        ("empty group 5 with seed 1", edited(&[(6, "    8    1\n")])),
    ]
}

/// Another sequence under the same seed, in all slots of a group and in the last two; the order
/// before, by the lowest tag alone; tags replaced by others that may stand there, for which a lower
/// seed or another sequence is building's.
fn sequences() -> Vec<Case> {
    vec![
        (
            "group 0 turned round",
            edited(&[(7, "        23\n         2\n")]),
        ),
        (
            "group 2 turned round",
            edited(&[(10, "        16\n        37\n")]),
        ),
        (
            "fewest second places",
            b"    3    1\n    0    0\n         2\n        12\n         1\n".to_vec(),
        ),
        (
            "the lowest tag alone",
            b"    3    1\n    0    0\n        12\n         1\n         2\n".to_vec(),
        ),
        ("tag 51 of group 4 is 53", edited(&[(13, "        53\n")])),
        ("tag 16 of group 2 is 58", edited(&[(11, "        58\n")])),
    ]
}

/// Of several groups the lowest is named.
fn several() -> Vec<Case> {
    vec![
        (
            "groups 2 and 4",
            edited(&[(5, "    6    7\n"), (10, "        16\n        37\n")]),
        ),
        (
            "groups 1 and 5",
            edited(&[(2, "    2    9\n"), (6, "    8    9\n")]),
        ),
        ("groups 3 and 4", edited(&[(4, "    5    1\n    6    7\n")])),
        ("groups 4 and 5", edited(&[(5, "    6    7\n    8    1\n")])),
        (
            "all groups",
            edited(&[
                (
                    1,
                    "    0    2\n    2    1\n    2    0\n    5    3\n    6    7\n    8    4\n",
                ),
                (
                    7,
                    "        23\n         2\n        39\n        16\n        37\n",
                ),
            ]),
        ),
    ]
}

/// Slots exchanged between groups and in one: a tag of another group, or one that may not stand
/// there, is checking's to refuse.
fn exchanged() -> Vec<Case> {
    vec![
        (
            "slots of groups 0 and 4 exchanged",
            edited(&[
                (7, "        51\n        55\n"),
                (13, "         2\n        23\n"),
            ]),
        ),
        (
            "one slot of groups 2 and 3 exchanged",
            edited(&[(11, "         7\n        16\n")]),
        ),
        (
            "group 4 turned round",
            edited(&[(13, "        55\n        51\n")]),
        ),
    ]
}

/// Each refusal of checking with 19 due too, at a group before the fault or behind it.
fn due_at_once() -> Vec<Case> {
    vec![
        ("ten bytes", b"    3    2".to_vec()),
        (
            "one byte short, seed 7 in group 0",
            b"    3    2\n    0    7\n    1    1\n         2\n         1\n         3".to_vec(),
        ),
        (
            "one line short, seed 7 in group 0",
            b"    3    2\n    0    7\n    1    1\n         2\n         1\n".to_vec(),
        ),
        (
            "one line more, seed 7 in group 0",
            b"    3    2\n    0    7\n    1    1\n         2\n         1\n         3\n         4\n"
                .to_vec(),
        ),
        ("B = 0", edited(&[(0, "    8    0\n    0    9\n")])),
        (
            "a group line malformed",
            edited(&[(4, "    5   00\n"), (6, "    8    1\n")]),
        ),
        (
            "a slot line malformed",
            edited(&[(12, "        07\n"), (2, "    2    1\n")]),
        ),
        (
            "tag 0 in a slot",
            edited(&[(12, "         0\n"), (2, "    2    1\n")]),
        ),
        (
            "a start past N",
            edited(&[(4, "    9    0\n"), (6, "    8    1\n")]),
        ),
        (
            "group 0 starts at 1",
            edited(&[(1, "    1    0\n"), (6, "    8    1\n")]),
        ),
        (
            "a tag of another group",
            edited(&[(12, "         2\n"), (2, "    2    1\n")]),
        ),
        (
            "a tag at neither place",
            edited(&[(9, "        37\n        39\n"), (6, "    8    1\n")]),
        ),
        (
            "a tag twice",
            edited(&[(10, "        37\n        37\n"), (2, "    2    1\n")]),
        ),
        (
            "a tag twice, and 19 behind it",
            edited(&[(7, "         2\n         2\n"), (6, "    8    1\n")]),
        ),
    ]
}

/// A group of 32 tags, as many as a group may hold; and with four of them at their second places, each in
/// the place of the next.
fn full() -> Vec<Case> {
    let image = model::image_of(&CLOSE_32, 1, 1).expect("seed 0 serves these tags");
    let mut moved = image.clone();
    for (place, tag) in [(10, 32), (24, 29), (29, 21), (31, 7)] {
        moved[LINE * (2 + place)..][..LINE].copy_from_slice(&line_of_tag(tag));
    }
    vec![
        ("group of 32", image),
        ("group of 32, four tags moved on", moved),
    ]
}
