//! Groups, multipliers and places: the formulas of "Tags, groups and places".
//!
//! All arithmetic is exact in 64 bits; a remainder by 2^32 stands exactly where the paper has one.

use crate::placing::LARGEST_GROUP;
use crate::refusal::{refuse, Refusal};

/// "Let G = 2,654,435,761 (hexadecimal 9E3779B1)"
pub const G: u64 = 2_654_435_761;

/// "and K = 2,246,822,507 (hexadecimal 85EBCA6B)."
pub const K: u64 = 2_246_822_507;

const TWO_TO_32: u64 = 1 << 32;

/// "Group of tag t: floor((K × t mod 2^32) × B / 2^32)."
pub fn group_of(tag: u32, groups: u32) -> u32 {
    ((K * u64::from(tag) % TWO_TO_32) * u64::from(groups) / TWO_TO_32) as u32
}

/// "Multiplier for seed s and choice c (0 or 1): a = (4s + 2c + 1) × G mod 2^32, always odd."
///
/// The seed is at most 65,535.
pub fn multiplier(seed: u32, choice: u32) -> u64 {
    (4 * u64::from(seed) + 2 * u64::from(choice) + 1) * G % TWO_TO_32
}

/// "Place of tag t in a group of n tags: floor((a × t mod 2^32) × n / 2^32)."
///
/// The field's word is candidate position.
pub fn place_of(n: u32, seed: u32, choice: u32, tag: u32) -> u32 {
    let product = multiplier(seed, choice) * u64::from(tag) % TWO_TO_32;
    (product * u64::from(n) / TWO_TO_32) as u32
}

/// "**Place of one tag.** Refusal 1: n is not 1 to [32]. 2: seed above 65,535. 3: choice above 1.
/// Otherwise the place."
pub fn place_of_one_tag(n: u32, seed: u32, choice: u32, tag: u32) -> Result<u32, Refusal> {
    if !(1..=LARGEST_GROUP as u32).contains(&n) {
        return refuse(1);
    }
    if seed > 65_535 {
        return refuse(2);
    }
    if choice > 1 {
        return refuse(3);
    }
    Ok(place_of(n, seed, choice, tag))
}
