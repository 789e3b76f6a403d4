//! Building an image without tags from a list, in one call.

use crate::image::LARGEST_GROUP_COUNT;
use crate::line::line_of_two;
use crate::placing::limit_is_legal;
use crate::planning::{examine_group_count, examine_tags, members};
use crate::refusal::{refuse, refuse_at, Refusal};
use crate::tagless::image::{tagless_length, GroupLine};
use crate::tagless::word::first_seed_and_word;

/// "Refusals 4 to 13 and 17 keep their sense and order for the new lines, built in one call with 9 before
/// 10 and 7 as in document 01": the order is 8, 4, 5, 6, 17, 9, 10, 7.
///
/// "A refusal writes nothing." "A success writes what is said here and no other byte."
pub fn build(tags: &[u32], groups: u32, limit: u32, buffer: &mut [u8]) -> Result<usize, Refusal> {
    examine_group_count(groups)?;
    if !limit_is_legal(limit) {
        return refuse(4);
    }
    examine_tags(tags)?;
    // "9: buffer shorter than the image."
    if buffer.len() < tagless_length(groups as usize) {
        return refuse(9);
    }
    let members = members(tags, groups)?;

    let mut image = line_of_two(tags.len() as u64, u64::from(groups));
    // "The start of a group is the number of tags in lower groups."
    let mut start = 0;
    for (group, part) in members.iter().enumerate() {
        // "7: at the lowest group without a seed."
        let Some((seed, word)) = first_seed_and_word(part, limit) else {
            return refuse_at(7, group);
        };
        image.extend(GroupLine { start, seed, word }.bytes());
        start += part.len();
    }
    buffer[..image.len()].copy_from_slice(&image);
    Ok(image.len())
}

/// Building into a buffer that every image without tags fits: the image itself, or building's refusal,
/// which is never 9.
pub fn image_of(tags: &[u32], groups: u32, limit: u32) -> Result<Vec<u8>, Refusal> {
    let mut buffer = vec![0; tagless_length(LARGEST_GROUP_COUNT as usize)];
    let length = build(tags, groups, limit, &mut buffer)?;
    buffer.truncate(length);
    Ok(buffer)
}
