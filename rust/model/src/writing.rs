//! Writing: the image of a list under the seeds of a plan.

use crate::hash::place_of;
use crate::image::image_length;
use crate::line::{line_of_tag, line_of_two};
use crate::placing::{serves, word_taken};
use crate::planning::{examine_group_count, examine_tags, members, Plan};
use crate::refusal::{refuse, refuse_at, Refusal};

/// "a seed is at most 65,535"
pub const LARGEST_SEED: u32 = 65_535;

/// "writing takes list, plan and buffer": "writing gives them but for 4 and 7, with 8 for the plan's B.
/// [..] Refused in writing: 2 directly after 8, at the lowest of the first B groups with a seed above
/// 65,535; last, 18 at the lowest group that no choice sequence fills under its seed" (document 02,
/// §3). So the order is 8, 2, 5, 6, 17, 9, 10, 18. The plan need not be one of this list, nor one that
/// planning yielded.
///
/// "A refusal writes nothing." "A success writes what is said here and no other byte."
pub fn write_list(tags: &[u32], plan: &Plan, buffer: &mut [u8]) -> Result<usize, Refusal> {
    examine_group_count(plan.groups)?;
    // What stands from place B on is not looked at.
    let seeds = &plan.seeds[..plan.groups as usize];
    if let Some(group) = seeds.iter().position(|&seed| seed > LARGEST_SEED) {
        return refuse_at(2, group);
    }
    examine_tags(tags)?;
    // "9: buffer shorter than the image."
    if buffer.len() < image_length(plan.groups as usize, tags.len()) {
        return refuse(9);
    }
    let members = members(tags, plan.groups)?;
    if let Some(group) = (0..members.len()).find(|&group| !serves(&members[group], seeds[group])) {
        return refuse_at(18, group);
    }
    let image = lay_out(&members, seeds);
    buffer[..image.len()].copy_from_slice(&image);
    Ok(image.len())
}

/// The image's lines. "An empty group is written with the plan's seed" (document 02, §3).
fn lay_out(members: &[Vec<u32>], seeds: &[u32]) -> Vec<u8> {
    let mut group_lines = Vec::new();
    let mut slots = Vec::new();
    for (part, &seed) in members.iter().zip(seeds) {
        // "The start of a group is the number of tags in lower groups."
        group_lines.push((slots.len(), seed));
        // "Writing follows the rule too" (document 02, §6), under a seed that is not the least as well.
        let word = word_taken(part, seed).expect("a seed that serves has a filling sequence");
        slots.extend(by_place(part, seed, word));
    }

    let mut image = line_of_two(slots.len() as u64, members.len() as u64);
    for (start, seed) in group_lines {
        image.extend(line_of_two(start as u64, u64::from(seed)));
    }
    for tag in slots {
        image.extend(line_of_tag(tag));
    }
    image
}

/// A group's tags in the order of their places under the seed and the choice word.
fn by_place(part: &[u32], seed: u32, word: u32) -> Vec<u32> {
    let mut slots = vec![None; part.len()];
    for (index, &tag) in part.iter().enumerate() {
        let place = place_of(part.len() as u32, seed, word >> index & 1, tag) as usize;
        assert_eq!(
            slots[place], None,
            "a filling sequence uses each place once"
        );
        slots[place] = Some(tag);
    }
    slots.into_iter().flatten().collect()
}
