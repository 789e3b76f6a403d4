//! Checking an image without tags.

use crate::image::group_is_faulty;
use crate::refusal::{refuse_at, Refusal};
use crate::tagless::image::{GroupLine, TaglessImage};

/// 11, 12 and 11, then 12 at the first malformed line and 13 at the lowest faulty group, as in document
/// 01; "checking has no 14, 15 or 17". Neither seeds nor words are examined, but for their ranges.
pub fn check(image: &[u8]) -> Result<(), Refusal> {
    let image = TaglessImage::open(image)?;
    let lines: Vec<GroupLine> = (0..image.groups)
        .map(|group| image.group_line(group))
        .collect::<Result<_, _>>()?;
    for (group, line) in lines.iter().enumerate() {
        // The end of a group is the next start, "N after the last group".
        let end = lines.get(group + 1).map_or(image.tags, |next| next.start);
        if group_is_faulty(group, line.start, end) {
            return refuse_at(13, group);
        }
    }
    Ok(())
}
