//! Reading a list text, and writing one.

use crate::image::LARGEST_LIST;
use crate::line::{line, line_of_tag, line_of_two, read_tag, read_two, LINE};
use crate::refusal::{refuse, refuse_at, Refusal};

/// What reading answers: "B, L, the count, and the tags in their order"; the count is the length.
#[derive(Debug, Clone, PartialEq, Eq)]
pub struct List {
    /// B as written, 0 to 99,999 at this stage.
    pub groups: u32,
    /// L as written, 0 to 99,999 at this stage.
    pub limit: u32,
    /// The tags in the order of their lines, ascending or not.
    pub tags: Vec<u32>,
}

/// "**Reading a list.** 16 at place 0: fewer than 11 bytes, or not a multiple of 11. 16: first
/// malformed line. 5: more than 4,096 tags. 9: too few tag cells."
pub fn read_list(text: &[u8], cells: usize) -> Result<List, Refusal> {
    if text.len() < LINE || !text.len().is_multiple_of(LINE) {
        return refuse_at(16, 0);
    }
    // "line 0 holds B and L (0 to 99,999 each at this stage), and each later line one tag."
    let Some((groups, limit)) = read_two(line(text, 0)) else {
        return refuse_at(16, 0);
    };
    let mut tags = Vec::new();
    for index in 1..text.len() / LINE {
        match read_tag(line(text, index)) {
            Some(tag) => tags.push(tag),
            None => return refuse_at(16, index),
        }
    }
    if tags.len() > LARGEST_LIST {
        return refuse(5);
    }
    if tags.len() > cells {
        return refuse(9);
    }
    Ok(List {
        groups,
        limit,
        tags,
    })
}

/// The list text of B, L and the tags, in the order given. Panics if B or L is above 99,999.
pub fn list_text(groups: u32, limit: u32, tags: &[u32]) -> Vec<u8> {
    let mut text = line_of_two(u64::from(groups), u64::from(limit));
    for &tag in tags {
        text.extend(line_of_tag(tag));
    }
    text
}
