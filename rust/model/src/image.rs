//! The image: its lines, its length, and what checking and lookup both read in it.

use crate::line::{line, read_tag, read_two, LINE};
use crate::placing::LARGEST_GROUP;
use crate::refusal::{refuse, refuse_at, Refusal};

/// "A list has N tags, 0 to 4,096"
pub const LARGEST_LIST: usize = 4_096;

/// "B is the group count, 1 to 512."
pub const LARGEST_GROUP_COUNT: u32 = 512;

/// "The length is 11 × (1 + B + N)"
pub fn image_length(groups: usize, tags: usize) -> usize {
    LINE * (1 + groups + tags)
}

/// An image whose length and line 0 have been found in order.
pub struct Image<'a> {
    bytes: &'a [u8],
    /// N, 0 to 4,096.
    pub tags: usize,
    /// B, 1 to 512.
    pub groups: usize,
}

/// A group line: "the start of group g in five columns, its seed in five."
#[derive(Clone, Copy)]
pub struct GroupLine {
    pub start: usize,
    pub seed: u32,
}

impl<'a> Image<'a> {
    /// "11: fewer than 11 bytes. 12 at place 0: line 0 is malformed. 11: length is not
    /// 11 × (1 + B + N)." These come first in checking and in lookup.
    pub fn open(bytes: &'a [u8]) -> Result<Image<'a>, Refusal> {
        if bytes.len() < LINE {
            return refuse(11);
        }
        let Some((tags, groups)) = read_line_0(line(bytes, 0)) else {
            return refuse_at(12, 0);
        };
        if bytes.len() != image_length(groups, tags) {
            return refuse(11);
        }
        Ok(Image {
            bytes,
            tags,
            groups,
        })
    }

    /// The group line of group g, or 12 at that line, "Line 1 + g".
    pub fn group_line(&self, group: usize) -> Result<GroupLine, Refusal> {
        let index = 1 + group;
        match read_two(line(self.bytes, index)) {
            // "a seed is at most 65,535"; a start is bounded by its five columns only.
            Some((start, seed)) if seed <= 65_535 => Ok(GroupLine {
                start: start as usize,
                seed,
            }),
            _ => refuse_at(12, index),
        }
    }

    /// The tag in slot j, or 12 at its line: "Slot j is line 1 + B + j".
    pub fn slot(&self, slot: usize) -> Result<u32, Refusal> {
        let index = 1 + self.groups + slot;
        match read_tag(line(self.bytes, index)) {
            Some(tag) => Ok(tag),
            None => refuse_at(12, index),
        }
    }
}

/// "Line 0: N in five columns, B in five", with "N is at most 4,096, B is 1 to 512".
pub(crate) fn read_line_0(line: &[u8]) -> Option<(usize, usize)> {
    let (tags, groups) = read_two(line)?;
    let legal = tags as usize <= LARGEST_LIST && (1..=LARGEST_GROUP_COUNT).contains(&groups);
    legal.then_some((tags as usize, groups as usize))
}

/// "group 0 does not start at 0, or the next start (N after the last group) is lower than its
/// own, or is more than [32] above."
pub fn group_is_faulty(group: usize, start: usize, next_start: usize) -> bool {
    (group == 0 && start != 0) || next_start < start || next_start - start > LARGEST_GROUP
}
