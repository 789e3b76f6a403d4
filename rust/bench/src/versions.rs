//! The two versions that take the same texts, tags and plans and answer the same numbers.

use crate::plain;
use tag_index::raw::{self, PLAN_CELLS};

#[derive(Clone, Copy)]
pub struct Version {
    pub name: &'static str,
    pub build: fn(&[u8], &mut [u8]) -> u64,
    pub plan: fn(&[u8], &mut [u32; PLAN_CELLS]) -> u64,
    pub write: fn(&[u8], &[u32; PLAN_CELLS], &mut [u8]) -> u64,
    pub check: fn(&[u8]) -> u64,
    pub strict_check: fn(&[u8]) -> u64,
    pub lookup: fn(&[u8], u32) -> u64,
    pub place: fn(&[u32], u32, &mut [u32; 1]) -> u64,
    pub count_parts: fn(&[u32], u32) -> u64,
    pub tagless_build: fn(&[u8], &mut [u8]) -> u64,
    pub tagless_check: fn(&[u8]) -> u64,
    pub tagless_lookup: fn(&[u8], u32) -> u64,
}

/// The library that is proved, over its C boundary.
pub const PROVED: Version = Version {
    name: "proved",
    build: raw::build,
    plan: raw::plan,
    write: raw::write,
    check: raw::check,
    strict_check: raw::strict_check,
    lookup: raw::lookup,
    place: raw::place_group,
    count_parts: raw::count_parts,
    tagless_build: raw::tagless_build,
    tagless_check: raw::tagless_check,
    tagless_lookup: raw::tagless_lookup,
};

/// Plain Rust. Its building is one call, in which each group's seed and choices are found together.
pub const PLAIN: Version = Version {
    name: "plain",
    build: plain::build,
    plan: plain::plan,
    write: plain::write,
    check: plain::check,
    strict_check: plain::strict_check,
    lookup: plain::lookup,
    place: plain::place_group,
    count_parts: plain::count_parts,
    tagless_build: plain::tagless::build,
    tagless_check: plain::tagless::check,
    tagless_lookup: plain::tagless::lookup,
};

pub const BOTH: [Version; 2] = [PROVED, PLAIN];
