//! Planning: the seeds of a list's groups, found on one day and written on another.

use crate::hash::group_of;
use crate::image::{LARGEST_GROUP_COUNT, LARGEST_LIST};
use crate::placing::{
    first_is_unwired, first_not_ascending, first_seed, limit_is_legal, LARGEST_GROUP,
};
use crate::refusal::{refuse, refuse_at, Refusal};

/// "a plan, which is B and 512 seeds, 0 from place B on" (document 02, §3).
///
/// Planning yields such plans. Writing takes any B and any 512 numbers.
#[derive(Debug, Clone, Copy, PartialEq, Eq)]
pub struct Plan {
    /// B, 1 to 512 if planning yielded it.
    pub groups: u32,
    /// The seed of each group, and what stands behind the last.
    pub seeds: [u32; LARGEST_GROUP_COUNT as usize],
}

impl Plan {
    /// "a refused planning yields B = 0 and 512 zeros" (document 02, §3).
    pub const REFUSED: Plan = Plan {
        groups: 0,
        seeds: [0; LARGEST_GROUP_COUNT as usize],
    };
}

/// "planning takes list, B and L and yields a plan": "Planning gives building's refusals but for 9"
/// (document 02, §3), which are 8, 4, 5, 6, 17, 10 and 7, in that order.
///
/// A refusal is the answer; the plan beside it is `Plan::REFUSED`.
pub fn plan_list(tags: &[u32], groups: u32, limit: u32) -> Result<Plan, Refusal> {
    examine_group_count(groups)?;
    if !limit_is_legal(limit) {
        return refuse(4);
    }
    examine_tags(tags)?;
    let members = members(tags, groups)?;

    let mut plan = Plan::REFUSED;
    plan.groups = groups;
    for (group, part) in members.iter().enumerate() {
        // "7: at the lowest group without a seed."
        let Some(seed) = first_seed(part, limit) else {
            return refuse_at(7, group);
        };
        plan.seeds[group] = seed;
    }
    Ok(plan)
}

/// "8: B not 1 to 512."
pub fn examine_group_count(groups: u32) -> Result<(), Refusal> {
    if !(1..=LARGEST_GROUP_COUNT).contains(&groups) {
        return refuse(8);
    }
    Ok(())
}

/// "5: more than 4,096 tags. 6 as above." Then "17 if the first tag is 0" (document 02, §1).
pub fn examine_tags(tags: &[u32]) -> Result<(), Refusal> {
    if tags.len() > LARGEST_LIST {
        return refuse(5);
    }
    if let Some(index) = first_not_ascending(tags) {
        return refuse_at(6, index);
    }
    if first_is_unwired(tags) {
        return refuse(17);
    }
    Ok(())
}

/// Each group's tags, ascending as in the list, or "10: a group has more than [32] tags, at the lowest
/// such group."
pub fn members(tags: &[u32], groups: u32) -> Result<Vec<Vec<u32>>, Refusal> {
    let mut members = vec![Vec::new(); groups as usize];
    for &tag in tags {
        members[group_of(tag, groups) as usize].push(tag);
    }
    if let Some(group) = members.iter().position(|part| part.len() > LARGEST_GROUP) {
        return refuse_at(10, group);
    }
    Ok(members)
}
