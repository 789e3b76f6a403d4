//! Looking up one tag in an image without tags.

use crate::hash::{group_of, place_of};
use crate::image::group_is_faulty;
use crate::lookup::Found;
use crate::placing::UNWIRED;
use crate::refusal::{refuse_at, Refusal};
use crate::tagless::image::TaglessImage;
use crate::tagless::word::choice_of;

/// "Lookup gives start plus place for the choice so found, unknown in an empty group and for tag 0." Its
/// refusals are 11, 12 and 11, 12 at the tag's group line, 12 at the next group's line if there is one,
/// and 13, as in document 01.
///
/// It reads no other line, and for tag 0 none but line 0. A tag that was never listed gets a number too:
/// "a stranger's number is below N".
pub fn lookup(image: &[u8], tag: u32) -> Result<Found, Refusal> {
    let image = TaglessImage::open(image)?;
    if tag == UNWIRED {
        return Ok(Found::Unknown);
    }
    let group = group_of(tag, image.groups as u32) as usize;

    let line = image.group_line(group)?;
    let end = if group + 1 < image.groups {
        // The next line is malformed if only its word is.
        image.group_line(group + 1)?.start
    } else {
        image.tags
    };
    if group_is_faulty(group, line.start, end) || end > image.tags {
        return refuse_at(13, group);
    }
    let size = end - line.start;
    if size == 0 {
        return Ok(Found::Unknown);
    }
    let choice = choice_of(line.seed, line.word, tag);
    let number = line.start as u32 + place_of(size as u32, line.seed, choice, tag);
    Ok(Found::Number(number))
}
