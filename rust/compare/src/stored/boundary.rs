//! The cases of `cases_boundary` and `cases_boundary_text`: the 64-bit answers of the eleven functions, for the
//! whole case and for refusals of each.

use super::Output;
use crate::groups::PATH;

const WHOLE_CASE: &[u8] = b"    2    9\n         1\n         2\n         3\n";
const DESCENDING: &[u8] = b"    2    9\n         1\n         3\n         2\n";
const WITH_TAG_0: &[u8] = b"    2    9\n         0\n         1\n         2\n";
const FIVE_TAGS: &[u8] =
    b"    2    9\n         1\n         2\n         3\n         4\n         5\n";

pub fn write(output: &mut Output) {
    images(output);
    groups(output);
    tagless_builds(output);
    tagless_images(output);
    strict_images(output);
    parts(output);
}

/// Building, planning and writing.
pub fn from_texts(output: &mut Output) {
    let texts: [(&str, &[u8]); 9] = [
        ("whole case", WHOLE_CASE),
        ("no bytes", b""),
        (
            "line 2 malformed",
            b"    2    9\n         1\n        02\n         3\n",
        ),
        ("B = 0", b"    0    9\n         1\n"),
        ("L = 0", b"    2    0\n         1\n"),
        ("tag 2 after tag 3", DESCENDING),
        ("a list with tag 0", WITH_TAG_0),
        ("buffer of 77 for an image of 88 bytes", FIVE_TAGS),
        (
            "a seed above 0 with L = 1",
            b"    2    1\n         1\n         2\n         3\n",
        ),
    ];
    for (name, text) in texts {
        let mut image = [b'.'; 77];
        let answer = model::answer_build(text, &mut image);
        output.words(format!("{name}: {answer}\n"));
        output.words(image);
        output.words("\n");
    }
    plans(output);
    writing(output);
    long_texts(output);
}

/// Plans into cells that all hold 9.
fn planned(output: &mut Output, name: &str, text: &[u8]) {
    let mut cells = [9; 513];
    let answer = model::answer_plan(text, &mut cells);
    output.words(format!("{name}: {answer}\n  cells"));
    output.numbers(&cells);
    output.words("\n");
}

fn plans(output: &mut Output) {
    let texts: [(&str, &[u8]); 8] = [
        ("plan of the whole case", WHOLE_CASE),
        ("plan of no bytes", b""),
        (
            "plan, line 2 malformed",
            b"    2    9\n         1\n        02\n         3\n",
        ),
        ("plan, B = 513", b"  513    9\n         1\n"),
        ("plan, L = 65537", b"    265537\n         1\n"),
        ("plan, tag 2 after tag 3", DESCENDING),
        ("plan, a list with tag 0", WITH_TAG_0),
        (
            "plan, seeds 1 and 2 with L = 2",
            b"    2    2\n         1\n         3\n         4\n         9\n        12\n",
        ),
    ];
    for (name, text) in texts {
        planned(output, name, text);
    }
}

/// Writes with a plan of two seeds, and 4,294,967,295 behind them.
fn written(output: &mut Output, name: &str, text: &[u8], plan: [u32; 3]) {
    let mut cells = [u32::MAX; 513];
    cells[..3].copy_from_slice(&plan);
    let mut image = [b'.'; 77];
    let answer = model::answer_write(text, &cells, &mut image);
    output.words(format!("{name}: {answer}\n"));
    output.words(image);
    output.words("\n");
}

fn writing(output: &mut Output) {
    let cases: [(&str, &[u8], [u32; 3]); 10] = [
        ("writing of the whole case", WHOLE_CASE, [2, 0, 1]),
        (
            "writing, the text's B and L are 0 and 99999",
            b"    099999\n         1\n         2\n         3\n",
            [2, 65_535, 3],
        ),
        ("writing of no bytes, B = 0", b"", [0, 0, 0]),
        (
            "writing, the text's B malformed, B = 513",
            b"   02    9\n         1\n",
            [513, 0, 0],
        ),
        (
            "writing, B = 513",
            b"    2    9\n         1\n",
            [513, 65_536, 0],
        ),
        (
            "writing, seed 65536 in group 1, tag 2 after tag 3",
            DESCENDING,
            [2, 0, 65_536],
        ),
        ("writing, tag 2 after tag 3", DESCENDING, [2, 0, 1]),
        ("writing, a list with tag 0", WITH_TAG_0, [2, 0, 1]),
        (
            "writing, buffer of 77 for an image of 88 bytes",
            FIVE_TAGS,
            [2, 0, 0],
        ),
        (
            "writing, seed 0 does not serve group 1",
            WHOLE_CASE,
            [2, 0, 0],
        ),
    ];
    for (name, text, plan) in cases {
        written(output, name, text, plan);
    }
}

/// The longest text that is examined, with its last line well formed and not; and one byte more.
fn long_texts(output: &mut Output) {
    let mut longest = model::list_text(2, 9, &(0..5_956).collect::<Vec<u32>>());
    let mut answer = |name: &str, text: &[u8]| {
        let answer = model::answer_build(text, &mut [b'.'; 66]);
        output.words(format!("{name}: {answer}\n"));
    };
    answer("5956 tags", &longest);
    longest[65_526] = b' ';
    answer("last of 5957 lines malformed", &longest);
    let longer = [b' '; 65_528];
    answer("65528 bytes", &longer);
    planned(output, "plan of 65528 bytes", &longer);
    let name = "writing of 65528 bytes, B = 0";
    written(output, name, &longer, [0, 0, 0]);
}

fn images(output: &mut Output) {
    let images: [(&str, &[u8]); 8] = [
        (
            "whole image",
            b"    3    2\n    0    0\n    1    1\n         2\n         1\n         3\n",
        ),
        ("no bytes", b""),
        (
            "last slot malformed",
            b"    3    2\n    0    0\n    1    1\n         2\n         1\n        03\n",
        ),
        (
            "start past N",
            b"    3    2\n    0    0\n    4    1\n         2\n         1\n         3\n",
        ),
        (
            "tag of another group",
            b"    3    2\n    0    0\n    1    1\n         3\n         1\n         3\n",
        ),
        (
            "tag twice",
            b"    3    2\n    0    0\n    1    1\n         2\n         3\n         3\n",
        ),
        (
            "tag 0 in slot 0",
            b"    3    2\n    0    0\n    1    1\n         0\n         1\n         3\n",
        ),
        (
            "tag 0 in slot 2",
            b"    3    2\n    0    0\n    1    1\n         2\n         1\n         0\n",
        ),
    ];
    for (name, image) in images {
        output.words(format!("{name}: {}\n", model::answer_check(image)));
        for tag in 0..=4 {
            let answer = model::answer_lookup(image, tag);
            output.words(format!("  lookup of {tag}: {answer}\n"));
        }
    }
}

fn groups(output: &mut Output) {
    let more = [&PATH[..], &[1_706]].concat();
    let groups: [(&str, &[u32], u32); 14] = [
        ("worked value 3", &[1, 3], 2),
        ("empty group", &[], 1),
        ("tags with the same two places", &[599, 1_193], 1),
        ("a path of 32 tags", &PATH, 1),
        ("33 tags", &more, 1),
        ("33 tags, L = 0", &more, 0),
        ("L = 0", &[1, 3], 0),
        ("L = 65537", &[1, 3], 65_537),
        ("tag 5 after tag 9", &[3, 9, 5], 1),
        ("tag 5 twice, L = 65537", &[5, 5], 65_537),
        ("tag 0 twice", &[0, 0], 1),
        ("tag 0", &[0], 1),
        ("tag 0 and another, a seed above 0 with L = 1", &[0, 13], 1),
        ("a seed above 0 with L = 1", &[1, 3], 1),
    ];
    for (name, tags, limit) in groups {
        let mut word = [77];
        let answer = model::answer_place(tags, limit, &mut word);
        output.words(format!("{name}: {answer}\n  cell {}\n", word[0]));
    }
}

fn tagless_builds(output: &mut Output) {
    let texts: [(&str, &[u8]); 4] = [
        ("whole case without tags", WHOLE_CASE),
        (
            "without tags, line 2 malformed",
            b"    2    9\n         1\n        02\n         3\n",
        ),
        (
            "without tags, buffer of 77 for an image of 95 bytes",
            b"    4    9\n         1\n         2\n         3\n",
        ),
        (
            "without tags, a seed above 0 with L = 1",
            b"    2    1\n         1\n         2\n         3\n",
        ),
    ];
    for (name, text) in texts {
        let mut image = [b'.'; 77];
        let answer = model::answer_tagless_build(text, &mut image);
        output.words(format!("{name}: {answer}\n"));
        output.words(image);
        output.words("\n");
    }
}

fn tagless_images(output: &mut Output) {
    let images: [(&str, &[u8]); 5] = [
        (
            "whole image without tags",
            b"    3    2\n    0    0         0\n    1    1         1\n",
        ),
        (
            "without tags, last line missing",
            b"    3    2\n    0    0         0\n",
        ),
        (
            "without tags, word 4294967296 in line 2",
            b"    3    2\n    0    0         0\n    1    14294967296\n",
        ),
        (
            "without tags, start past N",
            b"    3    2\n    0    0         0\n    4    1         1\n",
        ),
        (
            "without tags, last group empty",
            b"    3    2\n    0    0         0\n    3    1         1\n",
        ),
    ];
    for (name, image) in images {
        output.words(format!("{name}: {}\n", model::answer_tagless_check(image)));
        for tag in 0..=2 {
            let answer = model::answer_tagless_lookup(image, tag);
            output.words(format!("  lookup of {tag}: {answer}\n"));
        }
    }
}

fn strict_images(output: &mut Output) {
    // Where checking refuses, 19 is due too, at group 0.
    let images: [(&str, &[u8]); 11] = [
        (
            "strict check of the whole image",
            b"    3    2\n    0    0\n    1    1\n         2\n         1\n         3\n",
        ),
        ("strict check of no bytes", b""),
        (
            "strict check, last slot malformed",
            b"    3    2\n    0    7\n    1    1\n         2\n         1\n        03\n",
        ),
        (
            "strict check, tag 0 in slot 2",
            b"    3    2\n    0    7\n    1    1\n         2\n         1\n         0\n",
        ),
        (
            "strict check, start past N",
            b"    3    2\n    0    7\n    4    1\n         2\n         1\n         3\n",
        ),
        (
            "strict check, tag of another group",
            b"    3    2\n    0    7\n    1    1\n         2\n         1\n         2\n",
        ),
        (
            "strict check, tag twice",
            b"    3    2\n    0    7\n    1    1\n         2\n         3\n         3\n",
        ),
        (
            "strict check, seed 7 in group 0",
            b"    3    2\n    0    7\n    1    1\n         2\n         1\n         3\n",
        ),
        (
            "strict check, group 1 under seed 2",
            b"    3    2\n    0    0\n    1    2\n         2\n         3\n         1\n",
        ),
        (
            "strict check, tags with the same two places exchanged",
            b"    2    1\n    0    0\n      1193\n       599\n",
        ),
        (
            "strict check, seed 1 in the last of 2 empty groups",
            b"    0    2\n    0    0\n    0    1\n",
        ),
    ];
    for (name, image) in images {
        let answer = model::answer_strict_check(image);
        output.words(format!("{name}: {answer}\n"));
    }
}

fn parts(output: &mut Output) {
    let groups: [(&str, &[u32], u32); 5] = [
        ("parts under a seed that serves", &[1, 3], 1),
        ("parts under a seed that does not", &[1, 3], 0),
        ("parts of the empty group", &[], 65_535),
        ("parts, seed 65536", &[1, 3], 65_536),
        ("parts, tag 5 after tag 9", &[3, 9, 5], 0),
    ];
    for (name, tags, seed) in groups {
        let answer = model::answer_parts(tags, seed);
        output.words(format!("{name}: {answer}\n"));
    }
}
