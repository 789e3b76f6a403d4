//! The strict check: whether an image is as building writes it.

use crate::building::image_of;
use crate::checking::check;
use crate::image::{GroupLine, Image};
use crate::line::line;
use crate::placing::LARGEST_LIMIT;
use crate::refusal::{refuse_at, Refusal};

/// "A strict check accepts exactly the images that building writes for some list, B and L: each seed the
/// least of all 65,536, each choice by the present order. It does so for whole images, empty groups
/// included, whose seed must be 0. Refused: 19 after all refusals of checking, at the lowest group whose
/// seed or slots differ from what building gives its tags" (document 02, §7).
///
/// The image's tags are taken out of it and built again, with its own B and the greatest L there is. If
/// some list, B and L have this image, then the tags are this list and B is this B; and under a greater L
/// the least seeds stay what they are. So the image is accepted exactly if the two are the same bytes.
pub fn strict_check(image: &[u8]) -> Result<(), Refusal> {
    check(image)?;
    let stated = Image::open(image)?;
    let lines: Vec<GroupLine> = (0..stated.groups)
        .map(|group| stated.group_line(group))
        .collect::<Result<_, _>>()?;
    let mut tags: Vec<u32> = (0..stated.tags)
        .map(|slot| stated.slot(slot))
        .collect::<Result<_, _>>()?;
    tags.sort_unstable();

    // Checking has found each group filled under the seed that it states, so that some seed serves it,
    // and no tag twice, none that is 0 and no group of more than 32.
    let built = image_of(&tags, stated.groups as u32, LARGEST_LIMIT)
        .expect("the tags of a checked image can be built");

    // Each tag is in its own group in both, so the groups have the same starts and ends.
    for (group, GroupLine { start, .. }) in lines.iter().enumerate() {
        let end = lines.get(group + 1).map_or(stated.tags, |next| next.start);
        let first_slot = 1 + stated.groups;
        let mut own_lines = (first_slot + start..first_slot + end).chain([1 + group]);
        if own_lines.any(|index| line(image, index) != line(&built, index)) {
            return refuse_at(19, group);
        }
    }
    Ok(())
}
