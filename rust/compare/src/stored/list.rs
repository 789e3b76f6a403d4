//! The cases of `cases_list`: reading a list into few cells, and the cells afterwards.

use super::Output;

pub fn write(output: &mut Output) {
    let cases: [(&str, usize); 17] = [
        ("    2    9\n         1\n         2\n         3\n", 5),
        ("    2    9\n         1\n         2\n         3\n", 3),
        ("    1    1\n", 0),
        ("99999    0\n4294967295\n         0\n", 3),
        ("    2    9\n         0\n         1\n", 3),
        ("", 5),
        ("    2    9", 5),
        ("    2    9\n         1\n ", 5),
        ("    2     \n         1\n", 5),
        ("00002    9\n         1\n", 5),
        ("    2    9\n         1\n        2 \n         x\n", 5),
        ("    2    9\n         1\n         2\n4294967296\n", 5),
        ("    2    9\n         1\n          \n", 5),
        ("    2    9\n         1\n         2\r         3\n", 5),
        ("    2    9\n         1\n         2\n         3\n", 2),
        ("    2    9\n         1\n         2\n        03\n", 2),
        ("    2    9\n         1\n", 0),
    ];
    for (text, count) in cases {
        // Every cell holds 7 before: a refusal leaves it, and so does a shorter list.
        let mut cells = vec![7; count];
        match model::read_list(text.as_bytes(), count) {
            Ok(list) => {
                cells[..list.tags.len()].copy_from_slice(&list.tags);
                output.words(format!(
                    "B {}, L {}, count {}",
                    list.groups,
                    list.limit,
                    list.tags.len()
                ));
            }
            Err(refusal) => output.refusal(refusal),
        }
        output.words("; cells");
        output.numbers(&cells);
        output.words("\n");
    }
}
