//! Looking up one tag in an image.

use crate::hash::{group_of, place_of};
use crate::image::{group_is_faulty, Image};
use crate::placing::UNWIRED;
use crate::refusal::{refuse_at, Refusal};

/// "So the answer is a number, unknown, or a refusal": what lookup finds unless it refuses.
#[derive(Debug, Clone, Copy, PartialEq, Eq)]
pub enum Found {
    /// The tag's number, which is its slot where there are slots.
    Number(u32),
    Unknown,
}

/// "**Lookup.** First 11, 12 and 11 as in checking. Then 12 at the tag's group line, then at the
/// next group's line if there is one. 13 at that group if it is faulty in the sense above or its
/// end exceeds N. If its size is 0 the answer is unknown."
///
/// It reads no other line than the paper names, and for tag 0 none but line 0.
pub fn lookup(image: &[u8], tag: u32) -> Result<Found, Refusal> {
    let image = Image::open(image)?;
    // "Looking up 0 answers unknown once line 0 and the length have passed" (document 02, §1).
    if tag == UNWIRED {
        return Ok(Found::Unknown);
    }
    let group = group_of(tag, image.groups as u32) as usize;

    let line = image.group_line(group)?;
    let end = if group + 1 < image.groups {
        image.group_line(group + 1)?.start
    } else {
        image.tags
    };
    if group_is_faulty(group, line.start, end) || end > image.tags {
        return refuse_at(13, group);
    }
    let size = end - line.start;
    if size == 0 {
        return Ok(Found::Unknown);
    }
    // "Next the slot of choice 0: 12 if malformed; its number if it holds the tag. Next the slot
    // of choice 1, alike. Otherwise unknown."
    for choice in 0..2 {
        let slot = line.start + place_of(size as u32, line.seed, choice, tag) as usize;
        if image.slot(slot)? == tag {
            return Ok(Found::Number(slot as u32));
        }
    }
    Ok(Found::Unknown)
}
