//! Building an image from a list: planning, then writing.

use crate::image::{image_length, LARGEST_GROUP_COUNT, LARGEST_LIST};
use crate::planning::plan_list;
use crate::refusal::Refusal;
use crate::writing::write_list;

/// "'Building' from here on means the two in turn, writing with the same list and the plan as it was
/// yielded; if planning refuses, its refusal is building's answer and writing is not begun" (document
/// 02, §3). "Where both 9 and 10 or 7 would be due, planning's is met first": the order is 8, 4, 5, 6,
/// 17, 10, 7, 9.
pub fn build(tags: &[u32], groups: u32, limit: u32, buffer: &mut [u8]) -> Result<usize, Refusal> {
    let plan = plan_list(tags, groups, limit)?;
    write_list(tags, &plan, buffer)
}

/// Building into a buffer that every image fits: the image itself, or building's refusal, which is
/// never 9.
pub fn image_of(tags: &[u32], groups: u32, limit: u32) -> Result<Vec<u8>, Refusal> {
    let mut buffer = vec![0; image_length(LARGEST_GROUP_COUNT as usize, LARGEST_LIST)];
    let length = build(tags, groups, limit, &mut buffer)?;
    buffer.truncate(length);
    Ok(buffer)
}
