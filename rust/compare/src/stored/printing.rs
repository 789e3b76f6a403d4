//! The cases of `cases_printing`: the whole case, a text for each refusal, the longest text that is
//! examined and one byte more, and an output that is too short for some image.

use super::Output;
use crate::groups::CLOSE_32;

/// Where the output has nothing written, it has dots, of which so many are shown.
const SHOWN: usize = 77;
const LONGEST_IMAGE: usize = 50_699;

pub fn write(output: &mut Output) {
    let group_of_32 = model::list_text(1, 1, &CLOSE_32);
    let group_of_33 = model::list_text(1, 9, &(1..=33).collect::<Vec<u32>>());
    let cases: [(&str, &[u8]); 15] = [
        (
            "whole case",
            b"    2    9\n         1\n         2\n         3\n",
        ),
        ("empty list", b"    1    1\n"),
        ("no bytes", b""),
        (
            "line 2 malformed",
            b"    2    9\n         1\n        02\n         3\n",
        ),
        ("B = 513", b"  513    9\n         1\n"),
        ("L = 0", b"    2    0\n         1\n"),
        ("L = 65537", b"    265537\n         1\n"),
        (
            "tag 2 after tag 3",
            b"    2    9\n         1\n         3\n         2\n",
        ),
        (
            "a list with tag 0",
            b"    2    9\n         0\n         1\n         2\n",
        ),
        ("tag 0 twice", b"    2    9\n         0\n         0\n"),
        (
            "a seed above 0 with L = 1",
            b"    2    1\n         1\n         2\n         3\n",
        ),
        ("32 tags in one group", &group_of_32),
        ("33 tags in one group", &group_of_33),
        ("65527 bytes", &[b' '; 65_527]),
        ("65528 bytes", &[b' '; 65_528]),
    ];
    for (name, text) in cases {
        show(output, name, &model::print_index(text));
    }
    // An output of 50,698 bytes: nothing is written, whatever the text.
    show(output, "output of 50698 bytes", &[]);
}

fn show(output: &mut Output, name: &str, printed: &[u8]) {
    let mut out = vec![b'.'; LONGEST_IMAGE];
    out[..printed.len()].copy_from_slice(printed);
    output.words(format!("{name}: {}\n", printed.len()));
    output.words(&out[..SHOWN]);
    output.words("\n");
}
