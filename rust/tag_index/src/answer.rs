//! The 64-bit answers of the C boundary, taken apart.
//!
//! The papers bound every answer: which refusals an operation has, which places they name, how
//! large a number is. An answer outside these bounds can only come from another library than the
//! proved one, so taking it apart panics: there is no safe way on, and no caller could do better.

use std::ops::RangeInclusive;

use crate::refusal::{Reason, Refusal};
use crate::tagless::LONGEST_TAGLESS_IMAGE;
use crate::{
    Parts, Placement, LARGEST_GROUP, LARGEST_GROUP_COUNT, LARGEST_LIMIT, LARGEST_LIST,
    LONGEST_IMAGE, LONGEST_TEXT, PLAN_CELLS,
};

/// The answer that stands for unknown.
pub const UNKNOWN: u64 = 4_294_967_295;

/// A refusal that an operation has, and the places that it can name.
type Allowed = (Reason, RangeInclusive<u32>);

const NO_PLACE: RangeInclusive<u32> = 0..=0;
const GROUPS: RangeInclusive<u32> = 0..=LARGEST_GROUP_COUNT - 1;
const SLOTS: RangeInclusive<u32> = 0..=LARGEST_LIST as u32 - 1;
const LINES_OF_IMAGE: RangeInclusive<u32> = 0..=(LONGEST_IMAGE / 11) as u32 - 1;
const LINES_OF_TAGLESS_IMAGE: RangeInclusive<u32> = 0..=LARGEST_GROUP_COUNT;
const LINES_OF_TEXT: RangeInclusive<u32> = 0..=(LONGEST_TEXT / 11) as u32 - 1;

/// The refusals that each operation has over the C boundary, in the order in which they come.
const BUILDING: [Allowed; 9] = [
    (Reason::MalformedList, LINES_OF_TEXT),
    (Reason::TooManyTags, NO_PLACE),
    (Reason::GroupCountOutOfRange, NO_PLACE),
    (Reason::LimitOutOfRange, NO_PLACE),
    (Reason::NotAscending, 1..=LARGEST_LIST as u32 - 1),
    (Reason::UnwiredTag, NO_PLACE),
    (Reason::GroupTooLarge, GROUPS),
    (Reason::NoSeed, GROUPS),
    (Reason::BufferTooShort, NO_PLACE),
];
const PLANNING: [Allowed; 8] = [
    (Reason::MalformedList, LINES_OF_TEXT),
    (Reason::TooManyTags, NO_PLACE),
    (Reason::GroupCountOutOfRange, NO_PLACE),
    (Reason::LimitOutOfRange, NO_PLACE),
    (Reason::NotAscending, 1..=LARGEST_LIST as u32 - 1),
    (Reason::UnwiredTag, NO_PLACE),
    (Reason::GroupTooLarge, GROUPS),
    (Reason::NoSeed, GROUPS),
];
const WRITING: [Allowed; 9] = [
    (Reason::MalformedList, LINES_OF_TEXT),
    (Reason::TooManyTags, NO_PLACE),
    (Reason::GroupCountOutOfRange, NO_PLACE),
    (Reason::SeedOutOfRange, GROUPS),
    (Reason::NotAscending, 1..=LARGEST_LIST as u32 - 1),
    (Reason::UnwiredTag, NO_PLACE),
    (Reason::BufferTooShort, NO_PLACE),
    (Reason::GroupTooLarge, GROUPS),
    (Reason::SeedDoesNotServe, GROUPS),
];
/// The refusals of the strict check: those of checking, and 19 behind them.
const STRICT_CHECKING: [Allowed; 7] = [
    (Reason::WrongLength, NO_PLACE),
    (Reason::MalformedLine, LINES_OF_IMAGE),
    (Reason::UnwiredTag, SLOTS),
    (Reason::FaultyGroup, GROUPS),
    (Reason::WrongSlot, SLOTS),
    (Reason::RepeatedTag, SLOTS),
    (Reason::NotAsBuilt, GROUPS),
];
/// How many of them are checking's.
const OF_CHECKING: usize = 6;
const LOOKUP: [Allowed; 3] = [
    (Reason::WrongLength, NO_PLACE),
    (Reason::MalformedLine, LINES_OF_IMAGE),
    (Reason::FaultyGroup, GROUPS),
];
const PLACING: [Allowed; 5] = [
    (Reason::LimitOutOfRange, NO_PLACE),
    (Reason::TooManyTags, NO_PLACE),
    (Reason::NotAscending, 1..=LARGEST_GROUP as u32 - 1),
    (Reason::UnwiredTag, NO_PLACE),
    (Reason::NoSeed, NO_PLACE),
];
const COUNTING_PARTS: [Allowed; 4] = [
    (Reason::SeedOutOfRange, NO_PLACE),
    (Reason::TooManyTags, NO_PLACE),
    (Reason::NotAscending, 1..=LARGEST_GROUP as u32 - 1),
    (Reason::UnwiredTag, NO_PLACE),
];

const TAGLESS_BUILDING: [Allowed; 9] = [
    (Reason::MalformedList, LINES_OF_TEXT),
    (Reason::TooManyTags, NO_PLACE),
    (Reason::GroupCountOutOfRange, NO_PLACE),
    (Reason::LimitOutOfRange, NO_PLACE),
    (Reason::NotAscending, 1..=LARGEST_LIST as u32 - 1),
    (Reason::UnwiredTag, NO_PLACE),
    (Reason::BufferTooShort, NO_PLACE),
    (Reason::GroupTooLarge, GROUPS),
    (Reason::NoSeed, GROUPS),
];
/// Checking an image without tags, and lookup in it.
const TAGLESS_READING: [Allowed; 3] = [
    (Reason::WrongLength, NO_PLACE),
    (Reason::MalformedLine, LINES_OF_TAGLESS_IMAGE),
    (Reason::FaultyGroup, GROUPS),
];

/// Building's answer for a buffer of `room` bytes: the image's length, or the refusal.
pub(crate) fn built(answer: u64, room: usize) -> Result<usize, Refusal> {
    match refusal(answer, &BUILDING) {
        Some(refusal) => Err(refusal),
        None => Ok(length("building", answer, room)),
    }
}

/// Planning's answer, and the cells that it was lent: they hold a plan of B groups, or the refusal came
/// and all of them are 0.
pub(crate) fn planned(answer: u64, cells: &[u32; PLAN_CELLS]) -> Result<(), Refusal> {
    let [groups, seeds @ ..] = cells;
    if let Some(refusal) = refusal(answer, &PLANNING) {
        if cells.iter().any(|&cell| cell != 0) {
            not_allowed("planning, with another plan than zeros,", answer);
        }
        return Err(refusal);
    }
    if !(1..=LARGEST_GROUP_COUNT.into()).contains(&answer) || answer != u64::from(*groups) {
        not_allowed(&format!("planning, with {groups} groups,"), answer);
    }
    let (used, unused) = seeds.split_at(answer as usize);
    if used.iter().any(|&seed| seed >= LARGEST_LIMIT) || unused.iter().any(|&seed| seed != 0) {
        not_allowed("planning, with no seeds of so many groups,", answer);
    }
    Ok(())
}

/// Writing's answer for a buffer of `room` bytes: the image's length, or the refusal.
pub(crate) fn written(answer: u64, room: usize) -> Result<usize, Refusal> {
    match refusal(answer, &WRITING) {
        Some(refusal) => Err(refusal),
        None => Ok(length("writing", answer, room)),
    }
}

/// The length of an image in a buffer of `room` bytes, from an answer that is no refusal.
fn length(operation: &str, answer: u64, room: usize) -> usize {
    let longest = room.min(LONGEST_IMAGE) as u64;
    // One line and at least one group line.
    if !(22..=longest).contains(&answer) || !answer.is_multiple_of(11) {
        not_allowed(operation, answer);
    }
    answer as usize
}

/// Checking's answer: 0, or the refusal.
pub(crate) fn checked(answer: u64) -> Result<(), Refusal> {
    accepted("checking", answer, &STRICT_CHECKING[..OF_CHECKING])
}

/// The strict check's answer: 0, or the refusal.
pub(crate) fn strictly_checked(answer: u64) -> Result<(), Refusal> {
    accepted("the strict check", answer, &STRICT_CHECKING)
}

/// The answer of an operation that answers 0, or the refusal.
fn accepted(operation: &str, answer: u64, allowed: &[Allowed]) -> Result<(), Refusal> {
    if let Some(refusal) = refusal(answer, allowed) {
        return Err(refusal);
    }
    if answer != 0 {
        not_allowed(operation, answer);
    }
    Ok(())
}

/// Lookup's answer: the tag's number, nothing for unknown, or the refusal.
pub(crate) fn looked_up(answer: u64) -> Result<Option<u32>, Refusal> {
    if let Some(refusal) = refusal(answer, &LOOKUP) {
        return Err(refusal);
    }
    if answer == UNKNOWN {
        return Ok(None);
    }
    if answer >= LARGEST_LIST as u64 {
        not_allowed("lookup", answer);
    }
    Ok(Some(answer as u32))
}

/// Lookup's answer in a checked image of `count` tags: the tag's number, or nothing for unknown. A
/// checked image has no refusal, and no number beyond its slots.
pub(crate) fn found(answer: u64, count: usize) -> Option<u32> {
    match looked_up(answer) {
        Ok(None) => None,
        Ok(Some(number)) if (number as usize) < count => Some(number),
        _ => not_allowed("lookup in a checked image", answer),
    }
}

/// Placing's answer for `count` tags and this seed limit, and the cell that it was lent: the seed with
/// the choice word, or the refusal.
pub(crate) fn placed(
    answer: u64,
    word: u32,
    count: usize,
    limit: u32,
) -> Result<Placement, Refusal> {
    if let Some(refusal) = refusal(answer, &PLACING) {
        return Err(refusal);
    }
    if count > LARGEST_GROUP || answer >= limit.min(LARGEST_LIMIT).into() {
        not_allowed("placing", answer);
    }
    // A word of 32 choices has no bit beyond them; as 64 bits it can be shifted by 32.
    if u64::from(word) >> count != 0 {
        not_allowed(&format!("placing, with word {word},"), answer);
    }
    Ok(Placement {
        seed: answer as u32,
        word,
    })
}

/// The answer of counting parts for `count` tags and this seed: whether it serves, and the number of
/// parts; or the refusal.
pub(crate) fn counted(answer: u64, count: usize, seed: u32) -> Result<Parts, Refusal> {
    if let Some(refusal) = refusal(answer, &COUNTING_PARTS) {
        return Err(refusal);
    }
    if count > LARGEST_GROUP || seed >= LARGEST_LIMIT {
        not_allowed("counting parts", answer);
    }
    let (number, serves) = (answer / 2, answer % 2 == 1);
    // No part is without a place, and each place is in one. A single part has n tags on n places, and
    // is served.
    let least = match count {
        0 => 0,
        _ => 1 + u64::from(!serves),
    };
    if !(least..=count as u64).contains(&number) || (count == 0 && !serves) {
        not_allowed(&format!("counting parts of {count} tags"), answer);
    }
    Ok(Parts {
        serves,
        number: number as u32,
    })
}

/// The answer of building without tags for a buffer of `room` bytes: the image's length, or the refusal.
pub(crate) fn tagless_built(answer: u64, room: usize) -> Result<usize, Refusal> {
    if let Some(refusal) = refusal(answer, &TAGLESS_BUILDING) {
        return Err(refusal);
    }
    let longest = room.min(LONGEST_TAGLESS_IMAGE) as u64;
    // Line 0 and at least one group line, each of them 21 bytes.
    if !(32..=longest).contains(&answer) || !(answer - 11).is_multiple_of(21) {
        not_allowed("building without tags", answer);
    }
    Ok(answer as usize)
}

/// The answer of checking an image without tags: 0, or the refusal.
pub(crate) fn tagless_checked(answer: u64) -> Result<(), Refusal> {
    accepted("checking without tags", answer, &TAGLESS_READING)
}

/// The answer of lookup in an image without tags: a number, nothing for unknown, or the refusal.
pub(crate) fn tagless_looked_up(answer: u64) -> Result<Option<u32>, Refusal> {
    if let Some(refusal) = refusal(answer, &TAGLESS_READING) {
        return Err(refusal);
    }
    if answer == UNKNOWN {
        return Ok(None);
    }
    if answer >= LARGEST_LIST as u64 {
        not_allowed("lookup without tags", answer);
    }
    Ok(Some(answer as u32))
}

/// The answer of lookup in a checked image without tags that says `count` tags: a number below that, or
/// nothing for unknown. A checked image has no refusal.
pub(crate) fn tagless_found(answer: u64, count: usize) -> Option<u32> {
    match tagless_looked_up(answer) {
        Ok(None) => None,
        Ok(Some(number)) if (number as usize) < count => Some(number),
        _ => not_allowed("lookup in a checked image without tags", answer),
    }
}

/// The refusal that an answer stands for, if it is one of those allowed at a place that it can name.
/// An answer without such a refusal goes back to the caller, which has bounds of its own.
fn refusal(answer: u64, allowed: &[Allowed]) -> Option<Refusal> {
    let reason = Reason::from_number((answer >> 32) as u32)?;
    let place = answer as u32;
    allowed
        .iter()
        .any(|(had, places)| *had == reason && places.contains(&place))
        .then_some(Refusal { reason, place })
}

/// How a panic ends that only another library can cause.
pub(crate) const WRONG_LIBRARY: &str = "the linked library is not the proved one";

fn not_allowed(operation: &str, answer: u64) -> ! {
    panic!("{operation} answered {answer}, which the papers do not allow: {WRONG_LIBRARY}")
}

#[cfg(test)]
mod tests {
    use super::*;
    use std::panic::catch_unwind;

    fn refused(number: u64, place: u64) -> u64 {
        (number << 32) + place
    }

    #[test]
    fn answers_at_their_bounds_are_taken() {
        for taken in [built, written] {
            assert_eq!(taken(22, 22), Ok(22));
            assert_eq!(taken(50_699, 60_000), Ok(50_699));
        }
        assert_eq!(checked(0), Ok(()));
        assert_eq!(strictly_checked(0), Ok(()));
        assert_eq!(looked_up(0), Ok(Some(0)));
        assert_eq!(looked_up(4_095), Ok(Some(4_095)));
        assert_eq!(looked_up(UNKNOWN), Ok(None));
        let reason = Reason::MalformedList;
        let last_line = Refusal {
            reason,
            place: 5_956,
        };
        assert_eq!(built(refused(16, 5_956), 0), Err(last_line));
    }

    /// A plan of so many groups that have this seed each.
    fn cells_of(groups: u32, seed: u32) -> [u32; PLAN_CELLS] {
        let mut cells = [0; PLAN_CELLS];
        cells[0] = groups;
        cells[1..=groups as usize].fill(seed);
        cells
    }

    #[test]
    fn plans_at_their_bounds_are_taken() {
        for groups in [1, 2, 512] {
            for seed in [0, 65_535] {
                assert_eq!(planned(groups.into(), &cells_of(groups, seed)), Ok(()));
            }
        }
    }

    #[test]
    fn a_plan_that_the_papers_do_not_allow_panics() {
        let taken = |answer, cells: [u32; PLAN_CELLS]| catch_unwind(|| planned(answer, &cells));
        // No group count, or another than the plan's.
        assert!(taken(0, [0; PLAN_CELLS]).is_err());
        let mut cells = [0; PLAN_CELLS];
        cells[0] = 513;
        assert!(taken(513, cells).is_err());
        for answer in [1, 3, refused(9, 0), refused(2, 0), refused(18, 0)] {
            assert!(taken(answer, cells_of(2, 7)).is_err(), "{answer}");
        }
        // No seed; a seed behind the last group.
        assert!(taken(2, cells_of(2, 65_536)).is_err());
        for group in [2, 3, 511] {
            let mut cells = cells_of(2, 7);
            cells[1 + group] = 1;
            assert!(taken(2, cells).is_err(), "{group}");
        }
        // A refused planning that leaves a number in the plan.
        for at in [0, 1, 2, 512] {
            let mut cells = [0; PLAN_CELLS];
            cells[at] = 1;
            assert!(taken(refused(7, 1), cells).is_err(), "{at}");
        }
    }

    #[test]
    fn seeds_and_words_at_their_bounds_are_taken() {
        for (seed, word, count, limit) in [
            (0, 0, 0, 1),
            (0, 1, 1, 1),
            (8, 2, 2, 9),
            (0, u32::MAX >> 1, 31, 1),
            (65_535, u32::MAX, 32, 65_536),
        ] {
            let placement = Placement { seed, word };
            assert_eq!(placed(seed.into(), word, count, limit), Ok(placement));
        }
    }

    #[test]
    fn every_refusal_of_every_operation_is_taken_at_its_places_and_no_other() {
        for &reason in Reason::ALL {
            for place in [
                0, 1, 31, 32, 511, 512, 513, 4_095, 4_096, 4_608, 4_609, 5_956, 5_957,
            ] {
                let answer = refused(reason.number().into(), place.into());
                let refusal = Refusal { reason, place };
                let has = |allowed: &[Allowed]| {
                    let mut places = allowed.iter().filter(|(had, _)| *had == reason);
                    places.any(|(_, places)| places.contains(&place))
                };
                assert_eq!(has(&BUILDING), built_is(answer, refusal));
                assert_eq!(has(&PLANNING), planned_is(answer, refusal));
                assert_eq!(has(&WRITING), written_is(answer, refusal));
                assert_eq!(
                    has(&STRICT_CHECKING[..OF_CHECKING]),
                    checked_is(answer, refusal)
                );
                assert_eq!(has(&STRICT_CHECKING), strictly_checked_is(answer, refusal));
                assert_eq!(has(&LOOKUP), looked_up_is(answer, refusal));
                assert_eq!(has(&PLACING), placed_is(answer, refusal));
                assert_eq!(has(&COUNTING_PARTS), counted_is(answer, refusal));
                assert_eq!(has(&TAGLESS_BUILDING), tagless_built_is(answer, refusal));
                assert_eq!(has(&TAGLESS_READING), tagless_checked_is(answer, refusal));
                assert_eq!(has(&TAGLESS_READING), tagless_looked_up_is(answer, refusal));
            }
        }
    }

    #[test]
    fn refusal_17_names_the_first_tag_from_building_and_a_slot_from_checking() {
        let unwired = |place| Refusal {
            reason: Reason::UnwiredTag,
            place,
        };
        assert_eq!(built(refused(17, 0), 0), Err(unwired(0)));
        assert_eq!(checked(refused(17, 0)), Err(unwired(0)));
        assert_eq!(checked(refused(17, 4_095)), Err(unwired(4_095)));
        assert!(catch_unwind(|| built(refused(17, 1), 0)).is_err());
        assert!(catch_unwind(|| checked(refused(17, 4_096))).is_err());
        assert!(catch_unwind(|| looked_up(refused(17, 0))).is_err());
    }

    #[test]
    fn refusal_19_names_a_group_and_comes_from_the_strict_check_alone() {
        for place in [0, 1, 511] {
            let refusal = Refusal {
                reason: Reason::NotAsBuilt,
                place,
            };
            assert_eq!(strictly_checked(refused(19, place.into())), Err(refusal));
        }
        assert!(catch_unwind(|| strictly_checked(refused(19, 512))).is_err());
        for place in [0, 1] {
            assert!(catch_unwind(|| checked(refused(19, place))).is_err());
            assert!(catch_unwind(|| looked_up(refused(19, place))).is_err());
            assert!(catch_unwind(|| tagless_checked(refused(19, place))).is_err());
        }
        // What the strict check has with checking it takes at the same places.
        for number in [11, 12, 13, 14, 15, 17] {
            for place in [0, 1, 511, 512, 4_095, 4_096, 4_608, 4_609] {
                let answer = refused(number, place);
                let taken =
                    |check: fn(u64) -> Result<(), Refusal>| catch_unwind(|| check(answer)).ok();
                assert_eq!(
                    taken(strictly_checked),
                    taken(checked),
                    "{number} at {place}"
                );
            }
        }
    }

    #[test]
    fn the_plan_s_own_refusals_name_a_group_of_it() {
        for (number, reason) in [(2, Reason::SeedOutOfRange), (18, Reason::SeedDoesNotServe)] {
            for place in [0, 511] {
                let refusal = Refusal { reason, place };
                let answer = refused(number, place.into());
                assert_eq!(written(answer, 0), Err(refusal));
                assert!(catch_unwind(|| built(answer, 0)).is_err());
            }
            assert!(catch_unwind(|| written(refused(number, 512), 0)).is_err());
        }
        // A plan has no seed limit, and its seeds are not searched for.
        for number in [4, 7] {
            assert!(catch_unwind(|| written(refused(number, 0), 0)).is_err());
        }
    }

    #[test]
    fn placing_names_an_index_with_6_and_no_place_with_anything_else() {
        let refusal = |reason, place| Err(Refusal { reason, place });
        let taken = |number, place| placed(refused(number, place), 9, 3, 9);
        for (number, reason) in [
            (4, Reason::LimitOutOfRange),
            (5, Reason::TooManyTags),
            (17, Reason::UnwiredTag),
            (7, Reason::NoSeed),
        ] {
            assert_eq!(taken(number, 0), refusal(reason, 0));
            assert!(catch_unwind(|| taken(number, 1)).is_err(), "{number}");
        }
        assert_eq!(taken(6, 1), refusal(Reason::NotAscending, 1));
        assert_eq!(taken(6, 31), refusal(Reason::NotAscending, 31));
        for place in [0, 32] {
            assert!(catch_unwind(|| taken(6, place)).is_err(), "{place}");
        }
    }

    #[test]
    fn parts_at_their_bounds_are_taken() {
        let taken = |answer, count| {
            let parts = counted(answer, count, 65_535).unwrap();
            (parts.serves, parts.number)
        };
        // No tags: served, with no parts. One tag: served, with one.
        assert_eq!(taken(1, 0), (true, 0));
        assert_eq!(taken(3, 1), (true, 1));
        for count in [2, 31, 32] {
            assert_eq!(taken(3, count), (true, 1));
            assert_eq!(taken(4, count), (false, 2));
            let most = count as u64;
            assert_eq!(taken(2 * most + 1, count), (true, most as u32));
            assert_eq!(taken(2 * most, count), (false, most as u32));
        }
    }

    #[test]
    fn parts_that_the_papers_do_not_allow_panic() {
        // No parts of some tags, more parts than places, a single part that is not served.
        for (answer, count) in [
            (0, 0),
            (2, 0),
            (3, 0),
            (0, 1),
            (1, 1),
            (2, 1),
            (4, 1),
            (5, 1),
            (0, 2),
            (1, 2),
            (2, 2),
            (6, 2),
            (7, 2),
            (2, 32),
            (66, 32),
            (67, 32),
            (UNKNOWN, 32),
            (refused(4, 0), 2),
            (refused(7, 0), 2),
            (refused(18, 0), 2),
            (refused(2, 1), 2),
            (refused(6, 0), 2),
            (refused(6, 32), 32),
        ] {
            let taken = catch_unwind(|| counted(answer, count, 9));
            assert!(taken.is_err(), "{answer} for {count}");
        }
        // More tags than a group holds, a number that is no seed: refused, or nothing.
        assert!(catch_unwind(|| counted(3, 33, 9)).is_err());
        assert!(catch_unwind(|| counted(3, 2, 65_536)).is_err());
    }

    fn built_is(answer: u64, refusal: Refusal) -> bool {
        catch_unwind(|| built(answer, LONGEST_IMAGE)).is_ok_and(|taken| taken == Err(refusal))
    }

    fn planned_is(answer: u64, refusal: Refusal) -> bool {
        let taken = catch_unwind(|| planned(answer, &[0; PLAN_CELLS]));
        taken.is_ok_and(|taken| taken == Err(refusal))
    }

    fn written_is(answer: u64, refusal: Refusal) -> bool {
        catch_unwind(|| written(answer, LONGEST_IMAGE)).is_ok_and(|taken| taken == Err(refusal))
    }

    fn checked_is(answer: u64, refusal: Refusal) -> bool {
        catch_unwind(|| checked(answer)).is_ok_and(|taken| taken == Err(refusal))
    }

    fn strictly_checked_is(answer: u64, refusal: Refusal) -> bool {
        catch_unwind(|| strictly_checked(answer)).is_ok_and(|taken| taken == Err(refusal))
    }

    fn looked_up_is(answer: u64, refusal: Refusal) -> bool {
        catch_unwind(|| looked_up(answer)).is_ok_and(|taken| taken == Err(refusal))
    }

    fn placed_is(answer: u64, refusal: Refusal) -> bool {
        catch_unwind(|| placed(answer, 0, 32, 9)).is_ok_and(|taken| taken == Err(refusal))
    }

    fn counted_is(answer: u64, refusal: Refusal) -> bool {
        catch_unwind(|| counted(answer, 32, 9)).is_ok_and(|taken| taken == Err(refusal))
    }

    fn tagless_built_is(answer: u64, refusal: Refusal) -> bool {
        let taken = catch_unwind(|| tagless_built(answer, LONGEST_TAGLESS_IMAGE));
        taken.is_ok_and(|taken| taken == Err(refusal))
    }

    fn tagless_checked_is(answer: u64, refusal: Refusal) -> bool {
        catch_unwind(|| tagless_checked(answer)).is_ok_and(|taken| taken == Err(refusal))
    }

    fn tagless_looked_up_is(answer: u64, refusal: Refusal) -> bool {
        catch_unwind(|| tagless_looked_up(answer)).is_ok_and(|taken| taken == Err(refusal))
    }

    #[test]
    fn answers_without_tags_at_their_bounds_are_taken() {
        for (length, room) in [(32, 32), (32, 99), (53, 53), (10_763, 10_763)] {
            assert_eq!(tagless_built(length, room), Ok(length as usize));
        }
        assert_eq!(tagless_checked(0), Ok(()));
        assert_eq!(tagless_looked_up(0), Ok(Some(0)));
        assert_eq!(tagless_looked_up(4_095), Ok(Some(4_095)));
        assert_eq!(tagless_looked_up(UNKNOWN), Ok(None));
        assert_eq!(tagless_found(2, 3), Some(2));
        assert_eq!(tagless_found(UNKNOWN, 0), None);
    }

    #[test]
    fn an_answer_without_tags_that_the_papers_do_not_allow_panics() {
        // No length: too small, not 11 and 21 for each group, longer than the buffer or than any image.
        for (answer, room) in [
            (0, 99),
            (11, 99),
            (31, 99),
            (33, 99),
            (42, 99),
            (53, 52),
            (10_784, 60_000),
        ] {
            let taken = catch_unwind(|| tagless_built(answer, room));
            assert!(taken.is_err(), "{answer}");
        }
        for answer in [1, UNKNOWN, refused(14, 0), refused(15, 0), refused(17, 0)] {
            assert!(
                catch_unwind(|| tagless_checked(answer)).is_err(),
                "{answer}"
            );
        }
        for answer in [4_096, UNKNOWN - 1, refused(14, 0), refused(12, 513)] {
            assert!(
                catch_unwind(|| tagless_looked_up(answer)).is_err(),
                "{answer}"
            );
        }
        for (answer, count) in [(3, 3), (0, 0), (refused(11, 0), 3), (refused(13, 1), 3)] {
            assert!(
                catch_unwind(|| tagless_found(answer, count)).is_err(),
                "{answer}"
            );
        }
    }

    #[test]
    fn an_answer_that_the_papers_do_not_allow_panics() {
        // No length: too small, no multiple of 11, longer than the buffer or than any image.
        for (answer, room) in [(0, 99), (11, 99), (23, 99), (33, 32), (50_710, 60_000)] {
            assert!(catch_unwind(|| built(answer, room)).is_err(), "{answer}");
            assert!(catch_unwind(|| written(answer, room)).is_err(), "{answer}");
        }
        for answer in [1, UNKNOWN, UNKNOWN + 1, refused(11, 1), refused(13, 512)] {
            assert!(catch_unwind(|| checked(answer)).is_err(), "{answer}");
        }
        for answer in [1, UNKNOWN, refused(11, 1), refused(18, 0), refused(20, 0)] {
            let taken = catch_unwind(|| strictly_checked(answer));
            assert!(taken.is_err(), "{answer}");
        }
        for answer in [4_096, UNKNOWN - 1, refused(14, 0), refused(12, 4_609)] {
            assert!(catch_unwind(|| looked_up(answer)).is_err(), "{answer}");
        }
        // In a checked image no lookup is refused, and no number is that of no slot.
        assert_eq!(found(2, 3), Some(2));
        assert_eq!(found(UNKNOWN, 0), None);
        for (answer, count) in [(3, 3), (0, 0), (refused(11, 0), 3), (refused(13, 1), 3)] {
            assert!(catch_unwind(|| found(answer, count)).is_err(), "{answer}");
        }
        // No seed: not below the limit, above every seed, for more tags than a group holds.
        for (answer, count, limit) in [
            (9, 2, 9),
            (0, 2, 0),
            (65_536, 2, 65_537),
            (UNKNOWN, 2, u32::MAX),
            (0, 33, 9),
            (0, 64, 9),
        ] {
            let taken = || placed(answer, 0, count, limit);
            assert!(catch_unwind(taken).is_err(), "{answer} for {count}");
        }
        // No choice word: a bit behind the last tag.
        for (word, count) in [(1, 0), (2, 1), (4, 2), (1 << 31, 31), (u32::MAX, 31)] {
            let taken = || placed(0, word, count, 9);
            assert!(catch_unwind(taken).is_err(), "{word} for {count}");
        }
        // No number of a reason, a place that the reason does not name, a place out of range.
        for answer in [
            refused(18, 0),
            refused(19, 0),
            refused(20, 0),
            u64::MAX,
            refused(9, 1),
            refused(6, 0),
            refused(16, 5_957),
        ] {
            assert!(catch_unwind(|| built(answer, 99)).is_err(), "{answer}");
        }
    }
}
