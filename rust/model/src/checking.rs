//! Checking an image.

use crate::hash::{group_of, place_of};
use crate::image::{group_is_faulty, GroupLine, Image};
use crate::placing::UNWIRED;
use crate::refusal::{refuse_at, Refusal};

/// "**Checking.** 11 [..] 12 at place 0 [..] 11 [..] 12: at the first malformed line. 13: at the
/// lowest faulty group [..] 14 [..] 15 [..] Otherwise accepted. Least seeds are not examined." Refusal
/// 17 comes "directly after the malformed lines" (document 02, §1).
pub fn check(image: &[u8]) -> Result<(), Refusal> {
    let image = Image::open(image)?;
    let lines: Vec<GroupLine> = (0..image.groups)
        .map(|group| image.group_line(group))
        .collect::<Result<_, _>>()?;
    let slots: Vec<u32> = (0..image.tags)
        .map(|slot| image.slot(slot))
        .collect::<Result<_, _>>()?;

    // "at the lowest slot holding 0" (document 02, §1).
    if let Some(slot) = slots.iter().position(|&tag| tag == UNWIRED) {
        return refuse_at(17, slot);
    }

    // The end of a group is the next start, "N after the last group".
    let end = |group: usize| lines.get(group + 1).map_or(image.tags, |next| next.start);

    for (group, line) in lines.iter().enumerate() {
        if group_is_faulty(group, line.start, end(group)) {
            return refuse_at(13, group);
        }
    }
    // From here on the groups divide the slots: group g has the slots from its start to its end.
    let group_at = |slot: usize| {
        (0..image.groups)
            .find(|&group| lines[group].start <= slot && slot < end(group))
            .expect("every slot lies in one group")
    };

    // "14: at the lowest slot whose tag belongs to another group or has neither place there."
    for (slot, &tag) in slots.iter().enumerate() {
        let group = group_at(slot);
        let GroupLine { start, seed } = lines[group];
        let size = (end(group) - start) as u32;
        let stands_at_place =
            (0..2).any(|choice| start + place_of(size, seed, choice, tag) as usize == slot);
        if group_of(tag, image.groups as u32) as usize != group || !stands_at_place {
            return refuse_at(14, slot);
        }
    }
    // "15: at the lowest slot whose tag stands in a lower slot of its group."
    for (slot, &tag) in slots.iter().enumerate() {
        if slots[lines[group_at(slot)].start..slot].contains(&tag) {
            return refuse_at(15, slot);
        }
    }
    Ok(())
}
