//! The image without tags: its lines, its length, and what checking and lookup both read in it.

use crate::image::read_line_0;
use crate::line::{figure, line, read_figure, LINE};
use crate::refusal::{refuse, refuse_at, Refusal};

/// "Each group line has start and seed in five columns each, a word in ten columns [..], and a line feed,
/// 21 bytes."
pub const GROUP_LINE: usize = 21;

/// "No slot lines follow, so the length is 11 + 21 × B."
pub fn tagless_length(groups: usize) -> usize {
    LINE + GROUP_LINE * groups
}

/// A group line with its word.
#[derive(Debug, Clone, Copy, PartialEq, Eq)]
pub struct GroupLine {
    pub start: usize,
    pub seed: u32,
    pub word: u32,
}

impl GroupLine {
    /// The line's 21 bytes.
    pub fn bytes(&self) -> Vec<u8> {
        [
            figure(self.start as u64, 5),
            figure(u64::from(self.seed), 5),
            figure(u64::from(self.word), 10),
            b"\n".to_vec(),
        ]
        .concat()
    }

    /// The three fields of a line of 21 bytes; nothing if malformed. "a seed is at most 65,535"; a word
    /// is "malformed above 4,294,967,295"; a start is bounded by its five columns only.
    pub fn read(line: &[u8]) -> Option<GroupLine> {
        if line[20] != b'\n' {
            return None;
        }
        let start = read_figure(&line[..5])? as usize;
        let seed = read_figure(&line[5..10])? as u32;
        let word = u32::try_from(read_figure(&line[10..20])?).ok()?;
        (seed <= 65_535).then_some(GroupLine { start, seed, word })
    }
}

/// An image without tags whose length and line 0 have been found in order.
pub struct TaglessImage<'a> {
    bytes: &'a [u8],
    /// N, 0 to 4,096.
    pub tags: usize,
    /// B, 1 to 512.
    pub groups: usize,
}

impl<'a> TaglessImage<'a> {
    /// 11, 12 and 11 "keep their sense and order for the new lines": fewer than 11 bytes; line 0 is
    /// malformed, which is "as before"; the length is not 11 + 21 × B, whatever N is.
    pub fn open(bytes: &'a [u8]) -> Result<TaglessImage<'a>, Refusal> {
        if bytes.len() < LINE {
            return refuse(11);
        }
        let Some((tags, groups)) = read_line_0(line(bytes, 0)) else {
            return refuse_at(12, 0);
        };
        if bytes.len() != tagless_length(groups) {
            return refuse(11);
        }
        Ok(TaglessImage {
            bytes,
            tags,
            groups,
        })
    }

    /// The group line of group g, or 12 at that line, which is line 1 + g.
    pub fn group_line(&self, group: usize) -> Result<GroupLine, Refusal> {
        let bytes = &self.bytes[tagless_length(group)..tagless_length(group + 1)];
        match GroupLine::read(bytes) {
            Some(line) => Ok(line),
            None => refuse_at(12, 1 + group),
        }
    }
}
