//! The cases of `cases_long`: the longest list is read, one tag more is refused.

use super::Output;

pub fn write(output: &mut Output) {
    for count in [4_096, 4_097] {
        let tags: Vec<u32> = (0..count).collect();
        match model::read_list(&model::list_text(2, 9, &tags), 4_097) {
            Ok(list) => output.words(format!(
                "count {}, last tag {}",
                list.tags.len(),
                list.tags[4_095]
            )),
            Err(refusal) => output.refusal(refusal),
        }
        output.words("\n");
    }
}
