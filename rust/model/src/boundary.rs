//! The answers of the eleven calls over the C boundary.
//!
//! "Each call answers one 64-bit number: the length, the tag's number or 0 for an accepted check;
//! 4,294,967,295 for unknown; and for a refusal its number × 2^32 plus its place." Placing a group
//! answers its seed, and leaves the choice word in a cell that it is lent. Planning answers B, and
//! leaves the plan in 513 cells. The strict check answers as checking does. Counting parts answers twice
//! their number, and 1 more if the seed serves. The three calls of the index without tags answer as
//! building, checking and lookup do.

use crate::building::build;
use crate::checking::check;
use crate::lookup::{lookup, Found};
use crate::parts::count_parts;
use crate::placing::place_group;
use crate::planning::{plan_list, Plan};
use crate::printer::read_bounded_list;
use crate::refusal::Refusal;
use crate::strict_checking::strict_check;
use crate::tagless;
use crate::writing::write_list;

/// The answer that stands for unknown.
pub const UNKNOWN: u64 = 4_294_967_295;

/// "There building takes a list text, as reading does, and reading's refusals come first; before
/// them, a text above 65,527 bytes is refused with 5 at place 0."
pub fn answer_build(text: &[u8], buffer: &mut [u8]) -> u64 {
    let built =
        read_bounded_list(text).and_then(|list| build(&list.tags, list.groups, list.limit, buffer));
    match built {
        Ok(length) => length as u64,
        Err(refusal) => answer_of_refusal(refusal),
    }
}

/// A plan in cells: B in cell 0, the seed of group g in cell 1 + g.
pub type Cells = [u32; 513];

/// B, at most 512, and the plan in the cells. A list text is taken as in building. The cells of a
/// refused planning are all 0, those of a text that reading refuses too.
pub fn answer_plan(text: &[u8], plan: &mut Cells) -> u64 {
    let planned =
        read_bounded_list(text).and_then(|list| plan_list(&list.tags, list.groups, list.limit));
    *plan = cells_of(&planned.unwrap_or(Plan::REFUSED));
    match planned {
        Ok(plan) => u64::from(plan.groups),
        Err(refusal) => answer_of_refusal(refusal),
    }
}

/// The length. The list is the text's tags; its B and L have to be well formed and mean nothing.
pub fn answer_write(text: &[u8], plan: &Cells, buffer: &mut [u8]) -> u64 {
    let plan = plan_of(plan);
    let written = read_bounded_list(text).and_then(|list| write_list(&list.tags, &plan, buffer));
    match written {
        Ok(length) => length as u64,
        Err(refusal) => answer_of_refusal(refusal),
    }
}

fn cells_of(plan: &Plan) -> Cells {
    let mut cells = [0; 513];
    cells[0] = plan.groups;
    cells[1..].copy_from_slice(&plan.seeds);
    cells
}

/// The plan that any 513 numbers are.
fn plan_of(cells: &Cells) -> Plan {
    let mut plan = Plan::REFUSED;
    plan.groups = cells[0];
    plan.seeds.copy_from_slice(&cells[1..]);
    plan
}

/// 0 if checking accepts the image.
pub fn answer_check(image: &[u8]) -> u64 {
    match check(image) {
        Ok(()) => 0,
        Err(refusal) => answer_of_refusal(refusal),
    }
}

/// 0 if the strict check accepts the image (document 02, §7).
pub fn answer_strict_check(image: &[u8]) -> u64 {
    match strict_check(image) {
        Ok(()) => 0,
        Err(refusal) => answer_of_refusal(refusal),
    }
}

/// The tag's number, at most 4,095, or the answer for unknown.
pub fn answer_lookup(image: &[u8], tag: u32) -> u64 {
    answer_of_found(lookup(image, tag))
}

fn answer_of_found(found: Result<Found, Refusal>) -> u64 {
    match found {
        Ok(Found::Number(number)) => u64::from(number),
        Ok(Found::Unknown) => UNKNOWN,
        Err(refusal) => answer_of_refusal(refusal),
    }
}

/// The length of the image without tags. A list text is taken as in building.
pub fn answer_tagless_build(text: &[u8], buffer: &mut [u8]) -> u64 {
    let built = read_bounded_list(text)
        .and_then(|list| tagless::build(&list.tags, list.groups, list.limit, buffer));
    match built {
        Ok(length) => length as u64,
        Err(refusal) => answer_of_refusal(refusal),
    }
}

/// 0 if checking accepts the image without tags.
pub fn answer_tagless_check(image: &[u8]) -> u64 {
    match tagless::check(image) {
        Ok(()) => 0,
        Err(refusal) => answer_of_refusal(refusal),
    }
}

/// The tag's number, at most 4,095, or the answer for unknown.
pub fn answer_tagless_lookup(image: &[u8], tag: u32) -> u64 {
    answer_of_found(tagless::lookup(image, tag))
}

/// The seed, at most 65,535, and the choice word in the cell. "A refusal writes nothing": the cell
/// stays as it was.
pub fn answer_place(tags: &[u32], limit: u32, word: &mut [u32; 1]) -> u64 {
    match place_group(tags, limit) {
        Ok((seed, choices)) => {
            word[0] = choices;
            u64::from(seed)
        }
        Err(refusal) => answer_of_refusal(refusal),
    }
}

/// Twice the number of parts, at most 64, and 1 more if the seed serves (document 02, §8).
pub fn answer_parts(tags: &[u32], seed: u32) -> u64 {
    match count_parts(tags, seed) {
        Ok(parts) => 2 * u64::from(parts.number) + u64::from(parts.serves),
        Err(refusal) => answer_of_refusal(refusal),
    }
}

fn answer_of_refusal(refusal: Refusal) -> u64 {
    (u64::from(refusal.number) << 32) + refusal.place
}
