//! The eleven functions of the C boundary, and a safe function over each that answers its 64-bit
//! number as it is. All `unsafe` of this crate stands here.
//!
//! Each function takes any bytes, numbers and lengths, and reads and writes only inside the ranges
//! given: that is what is proved of them. What the proofs leave to the caller is that a pointer
//! and a length are a valid range, and that the range written overlaps no other. A slice is such
//! a range, cells behind a reference too, and `&mut` is alone.

#![allow(unsafe_code)]

use crate::LARGEST_GROUP_COUNT;

/// The cells of a plan: B, and the seed of each of the [`LARGEST_GROUP_COUNT`] groups that there can
/// be.
pub const PLAN_CELLS: usize = 1 + LARGEST_GROUP_COUNT as usize;

mod c {
    extern "C" {
        // Declared as in include/tag_index.h; `usize` is C's `size_t`.
        pub fn tag_index_build(
            text: *const u8,
            text_length: usize,
            image: *mut u8,
            image_length: usize,
        ) -> u64;
        pub fn tag_index_plan(text: *const u8, text_length: usize, plan: *mut u32) -> u64;
        pub fn tag_index_write(
            text: *const u8,
            text_length: usize,
            plan: *const u32,
            image: *mut u8,
            image_length: usize,
        ) -> u64;
        pub fn tag_index_check(image: *const u8, image_length: usize) -> u64;
        pub fn tag_index_strict_check(image: *const u8, image_length: usize) -> u64;
        pub fn tag_index_lookup(image: *const u8, image_length: usize, tag: u32) -> u64;
        pub fn tag_index_place_group(
            tags: *const u32,
            tags_length: usize,
            limit: u32,
            word: *mut u32,
        ) -> u64;
        pub fn tag_index_parts(tags: *const u32, tags_length: usize, seed: u32) -> u64;
        pub fn tag_index_tagless_build(
            text: *const u8,
            text_length: usize,
            image: *mut u8,
            image_length: usize,
        ) -> u64;
        pub fn tag_index_tagless_check(image: *const u8, image_length: usize) -> u64;
        pub fn tag_index_tagless_lookup(image: *const u8, image_length: usize, tag: u32) -> u64;
    }
}

/// Building's answer: the image's length, or refusal number × 2^32 + place.
///
/// ```
/// let mut image = [0; 22];
/// assert_eq!(tag_index::raw::build(b"    1    1\n", &mut image), 22);
/// assert_eq!(tag_index::raw::build(b"    1    0\n", &mut image), 4 << 32);
/// ```
pub fn build(text: &[u8], image: &mut [u8]) -> u64 {
    // SAFETY: both pointers and lengths come from slices that live through the call; `image` is
    // borrowed for writing, so `text` does not overlap it.
    unsafe { c::tag_index_build(text.as_ptr(), text.len(), image.as_mut_ptr(), image.len()) }
}

/// Planning's answer: B, with B in the first of the cells lent, the seed of group g in the one with
/// index 1 + g, and 0 from group B on; or refusal number × 2^32 + place, with 0 in all of them.
///
/// ```
/// use tag_index::raw::{plan, PLAN_CELLS};
/// let mut cells = [9; PLAN_CELLS];
/// let text = b"    2    9\n         1\n         2\n         3\n";
/// assert_eq!(plan(text, &mut cells), 2);
/// assert_eq!(cells[..3], [2, 0, 1]);
/// assert_eq!(cells[3..], [0; 510]);
/// assert_eq!(plan(b"    2    0\n", &mut cells), 4 << 32);
/// assert_eq!(cells, [0; PLAN_CELLS]);
/// ```
pub fn plan(text: &[u8], plan: &mut [u32; PLAN_CELLS]) -> u64 {
    // SAFETY: pointer and length come from a slice, and the other pointer from a reference to as many
    // cells as a plan has; both live through the call. `plan` is borrowed for writing, so `text` does
    // not overlap it.
    unsafe { c::tag_index_plan(text.as_ptr(), text.len(), plan.as_mut_ptr()) }
}

/// Writing's answer: the image's length, or refusal number × 2^32 + place.
///
/// ```
/// use tag_index::raw::{plan, write, PLAN_CELLS};
/// let text = b"    1    9\n         1\n         3\n";
/// let mut cells = [0; PLAN_CELLS];
/// let mut image = [0; 44];
/// assert_eq!(plan(text, &mut cells), 1);
/// assert_eq!(write(text, &cells, &mut image), 44);
/// // Seed 0 does not serve the group of 1 and 3.
/// cells[1] = 0;
/// assert_eq!(write(text, &cells, &mut image), 18 << 32);
/// ```
pub fn write(text: &[u8], plan: &[u32; PLAN_CELLS], image: &mut [u8]) -> u64 {
    // SAFETY: both pointers with a length come from slices, and the third from a reference to as many
    // cells as a plan has; all live through the call. `image` is borrowed for writing, so neither
    // `text` nor `plan` overlaps it.
    unsafe {
        c::tag_index_write(
            text.as_ptr(),
            text.len(),
            plan.as_ptr(),
            image.as_mut_ptr(),
            image.len(),
        )
    }
}

/// Checking's answer: 0 if accepted, or refusal number × 2^32 + place.
///
/// ```
/// assert_eq!(tag_index::raw::check(b"    0    1\n    0    0\n"), 0);
/// assert_eq!(tag_index::raw::check(b"    0    1\n    1    0\n"), 13 << 32);
/// ```
pub fn check(image: &[u8]) -> u64 {
    // SAFETY: pointer and length come from a slice that lives through the call, and the function
    // only reads.
    unsafe { c::tag_index_check(image.as_ptr(), image.len()) }
}

/// The strict check's answer: 0 if accepted, or refusal number × 2^32 + place.
///
/// ```
/// use tag_index::raw::{check, strict_check};
/// assert_eq!(strict_check(b"    0    1\n    0    0\n"), 0);
/// // Checking takes any seed of an empty group; building gives it 0.
/// assert_eq!(check(b"    0    1\n    0    7\n"), 0);
/// assert_eq!(strict_check(b"    0    1\n    0    7\n"), 19 << 32);
/// ```
pub fn strict_check(image: &[u8]) -> u64 {
    // SAFETY: pointer and length come from a slice that lives through the call, and the function
    // only reads.
    unsafe { c::tag_index_strict_check(image.as_ptr(), image.len()) }
}

/// Lookup's answer: the tag's number, 4,294,967,295 for unknown, or refusal number × 2^32 + place.
///
/// ```
/// let image = b"    0    1\n    0    0\n";
/// assert_eq!(tag_index::raw::lookup(image, 7), tag_index::UNKNOWN);
/// assert_eq!(tag_index::raw::lookup(&image[..10], 7), 11 << 32);
/// ```
pub fn lookup(image: &[u8], tag: u32) -> u64 {
    // SAFETY: pointer and length come from a slice that lives through the call, and the function
    // only reads.
    unsafe { c::tag_index_lookup(image.as_ptr(), image.len(), tag) }
}

/// Placing's answer: the seed, with the choice word in the cell lent; or refusal number × 2^32 + place,
/// with the cell as it was.
///
/// ```
/// let mut word = [9];
/// assert_eq!(tag_index::raw::place_group(&[599, 1_193], 0, &mut word), 4 << 32);
/// assert_eq!(word, [9]);
/// assert_eq!(tag_index::raw::place_group(&[599, 1_193], 1, &mut word), 0);
/// assert_eq!(word, [2]);
/// ```
pub fn place_group(tags: &[u32], limit: u32, word: &mut [u32; 1]) -> u64 {
    // SAFETY: pointer and length come from a slice, and the other pointer from a reference to one
    // cell; both live through the call. `word` is borrowed for writing, so `tags` does not overlap it.
    unsafe { c::tag_index_place_group(tags.as_ptr(), tags.len(), limit, word.as_mut_ptr()) }
}

/// The answer of counting parts: twice their number, and 1 more if the seed serves; or refusal number ×
/// 2^32 + place.
///
/// ```
/// use tag_index::raw::count_parts;
/// // Seed 0 gives tags 1 and 3 one place of two: the other is a part by itself.
/// assert_eq!(count_parts(&[1, 3], 0), 2 * 2);
/// assert_eq!(count_parts(&[1, 3], 1), 2 * 1 + 1);
/// assert_eq!(count_parts(&[1, 3], 65_536), 2 << 32);
/// ```
pub fn count_parts(tags: &[u32], seed: u32) -> u64 {
    // SAFETY: pointer and length come from a slice that lives through the call, and the function
    // only reads.
    unsafe { c::tag_index_parts(tags.as_ptr(), tags.len(), seed) }
}

/// The answer of building without tags: the image's length, or refusal number × 2^32 + place.
///
/// ```
/// let mut image = [0; 32];
/// assert_eq!(tag_index::raw::tagless_build(b"    1    1\n", &mut image), 32);
/// assert_eq!(&image, b"    0    1\n    0    0         0\n");
/// assert_eq!(tag_index::raw::tagless_build(b"    1    1\n", &mut image[..31]), 9 << 32);
/// ```
pub fn tagless_build(text: &[u8], image: &mut [u8]) -> u64 {
    // SAFETY: both pointers and lengths come from slices that live through the call; `image` is
    // borrowed for writing, so `text` does not overlap it.
    unsafe {
        c::tag_index_tagless_build(text.as_ptr(), text.len(), image.as_mut_ptr(), image.len())
    }
}

/// The answer of checking an image without tags: 0 if accepted, or refusal number × 2^32 + place.
///
/// ```
/// use tag_index::raw::tagless_check;
/// assert_eq!(tagless_check(b"    0    1\n    0    0         0\n"), 0);
/// assert_eq!(tagless_check(b"    0    1\n    1    0         0\n"), 13 << 32);
/// ```
pub fn tagless_check(image: &[u8]) -> u64 {
    // SAFETY: pointer and length come from a slice that lives through the call, and the function
    // only reads.
    unsafe { c::tag_index_tagless_check(image.as_ptr(), image.len()) }
}

/// The answer of lookup in an image without tags: a number, 4,294,967,295 for unknown, or refusal
/// number × 2^32 + place.
///
/// ```
/// use tag_index::raw::tagless_lookup;
/// let image = b"    1    1\n    0    0         0\n";
/// assert_eq!(tagless_lookup(image, 7), 0);
/// assert_eq!(tagless_lookup(image, 0), tag_index::UNKNOWN);
/// assert_eq!(tagless_lookup(&image[..10], 7), 11 << 32);
/// ```
pub fn tagless_lookup(image: &[u8], tag: u32) -> u64 {
    // SAFETY: pointer and length come from a slice that lives through the call, and the function
    // only reads.
    unsafe { c::tag_index_tagless_lookup(image.as_ptr(), image.len(), tag) }
}
