//! The cases of `cases_image`: checking, and lookups of the tags 0 to 4, in small images, whole and
//! damaged.

use model::Found;

use super::Output;
use crate::groups::{CLOSE_25, CLOSE_32};

pub fn write(output: &mut Output) {
    // One group of 25 tags and one of 32, as building writes them; and one of the tags 1 to 33.
    let built = |tags: &[u32]| {
        let image = model::image_of(tags, 1, 1).expect("seed 0 serves these tags");
        String::from_utf8(image).expect("an image is text")
    };
    let (group_of_25, group_of_32) = (built(&CLOSE_25), built(&CLOSE_32));
    let tags: String = (1..=33).map(|tag| format!("{tag:>10}\n")).collect();
    let group_of_33 = format!("   33    1\n    0    0\n{tags}");
    let cases = [
        (
            "whole case",
            "    3    2\n    0    0\n    1    1\n         2\n         1\n         3\n",
        ),
        (
            "another seed",
            "    3    2\n    0    7\n    1    1\n         2\n         1\n         3\n",
        ),
        ("empty list", "    0    1\n    0    0\n"),
        (
            "empty group with a seed",
            "    0    2\n    0    5\n    065535\n",
        ),
        ("group of 25", &group_of_25),
        ("group of 32", &group_of_32),
        ("no bytes", ""),
        ("ten bytes", "    3    2"),
        (
            "header with B = 0",
            "    3    0\n    0    0\n    1    1\n         2\n         1\n         3\n",
        ),
        (
            "header with N = 4097",
            " 4097    2\n    0    0\n    1    1\n         2\n         1\n         3\n",
        ),
        (
            "one byte short",
            "    3    2\n    0    0\n    1    1\n         2\n         1\n         3",
        ),
        (
            "one line more",
            "    3    2\n    0    0\n    1    1\n         2\n         1\n         3\n         4\n",
        ),
        (
            "own line malformed",
            "    3    2\n    0   00\n    1    1\n         2\n         1\n         3\n",
        ),
        (
            "next line malformed",
            "    3    2\n    0    0\n    1     \n         2\n         1\n         3\n",
        ),
        (
            "seed 65536",
            "    3    2\n    0    0\n    165536\n         2\n         1\n         3\n",
        ),
        (
            "slot malformed",
            "    3    2\n    0    0\n    1    1\n        2 \n         1\n         3\n",
        ),
        (
            "slot 4294967296",
            "    3    2\n    0    0\n    1    1\n         2\n4294967296\n         3\n",
        ),
        (
            "last slot malformed",
            "    3    2\n    0    0\n    1    1\n         2\n         1\n        03\n",
        ),
        (
            "two lines malformed",
            "    3    2\n    0    0\n    1    1\n         2\n        x1\n         3\r",
        ),
        (
            "first start 1",
            "    3    2\n    1    0\n    1    1\n         2\n         1\n         3\n",
        ),
        (
            "start past N",
            "    3    2\n    0    0\n    4    1\n         2\n         1\n         3\n",
        ),
        (
            "start 99999",
            "    3    2\n    0    0\n99999    1\n         2\n         1\n         3\n",
        ),
        ("group of 33", &group_of_33),
        (
            "starts moved",
            "    3    2\n    0    0\n    2    1\n         2\n         1\n         3\n",
        ),
        (
            "tag of another group",
            "    3    2\n    0    0\n    1    1\n         3\n         1\n         3\n",
        ),
        (
            "tag at neither place",
            "    3    2\n    0    0\n    1    1\n         2\n         3\n         1\n",
        ),
        (
            "tag twice",
            "    3    2\n    0    0\n    1    1\n         2\n         3\n         3\n",
        ),
        (
            "tag twice, first at its second place",
            "    2    1\n    0    0\n         6\n         6\n",
        ),
        // 17, in its place or not; behind 12, before 13, 14 and 15.
        (
            "tag 0 in slot 0",
            "    3    2\n    0    0\n    1    1\n         0\n         1\n         3\n",
        ),
        (
            "tag 0 in slot 2",
            "    3    2\n    0    0\n    1    1\n         2\n         1\n         0\n",
        ),
        (
            "tag 0 in slots 1 and 2",
            "    3    2\n    0    0\n    1    1\n         2\n         0\n         0\n",
        ),
        (
            "tag 0 at its place, beside one tag",
            "    2    1\n    0    0\n         0\n2147483648\n",
        ),
        (
            "tag 0, last slot malformed",
            "    3    2\n    0    0\n    1    1\n         2\n         0\n        03\n",
        ),
        (
            "tag 0, own line malformed",
            "    3    2\n    0   00\n    1    1\n         2\n         1\n         0\n",
        ),
        (
            "tag 0, first start 1",
            "    3    2\n    1    0\n    1    1\n         2\n         0\n         3\n",
        ),
        (
            "tag 0, start past N",
            "    3    2\n    0    0\n    4    1\n         2\n         1\n         0\n",
        ),
        (
            "tag 0 behind a tag of another group",
            "    3    2\n    0    0\n    1    1\n         3\n         1\n         0\n",
        ),
        (
            "tag 0 before a tag twice",
            "    3    2\n    0    0\n    1    1\n         0\n         3\n         3\n",
        ),
    ];
    for (name, image) in cases {
        output.words(format!("{name}: "));
        match model::check(image.as_bytes()) {
            Ok(()) => output.words("accepted"),
            Err(refusal) => output.refusal(refusal),
        }
        output.words("\n");
        for tag in 0..5 {
            output.words(format!("  lookup of {tag}: "));
            match model::lookup(image.as_bytes(), tag) {
                Ok(Found::Number(number)) => output.words(number.to_string()),
                Ok(Found::Unknown) => output.words("unknown"),
                Err(refusal) => output.refusal(refusal),
            }
            output.words("\n");
        }
    }
}
