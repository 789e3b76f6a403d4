//! Counting parts: a second test of a seed, which moves no tag.

use crate::placing::{both_places, first_is_unwired, first_not_ascending, LARGEST_GROUP};
use crate::refusal::{refuse, refuse_at, Refusal};
use crate::writing::LARGEST_SEED;

/// What the second test says of a group and a seed: "whether the seed serves and how many parts there
/// are" (document 02, §8).
#[derive(Debug, Clone, Copy, PartialEq, Eq)]
pub struct Parts {
    pub serves: bool,
    /// At most 32. It is said where the seed does not serve, too.
    pub number: u32,
}

/// "It takes a group and a seed, refuses with 2, 5, 6 and 17 in that order, and otherwise says whether
/// the seed serves and how many parts there are; the empty group is served, with no parts" (document 02,
/// §8).
pub fn count_parts(tags: &[u32], seed: u32) -> Result<Parts, Refusal> {
    if seed > LARGEST_SEED {
        return refuse(2);
    }
    if tags.len() > LARGEST_GROUP {
        return refuse(5);
    }
    if let Some(index) = first_not_ascending(tags) {
        return refuse_at(6, index);
    }
    if first_is_unwired(tags) {
        return refuse(17);
    }
    Ok(parts_of_pairs(&pairs_under(tags, seed)))
}

/// The pair of places of each tag under the seed.
fn pairs_under(tags: &[u32], seed: u32) -> Vec<[usize; 2]> {
    let pair = |&tag| both_places(tags.len(), seed, tag);
    tags.iter().map(pair).collect()
}

/// "a seed serves just when no connected part of the graph (places as points, tags as edges) has more
/// edges than points" (document 02, §8). The points are all n places: one that no tag has is a part by
/// itself.
///
/// Each part is walked through from its lowest place on. Each tag has two ends, also one with equal
/// places; both lie in the part, so it has half as many edges as ends.
pub fn parts_of_pairs(pairs: &[[usize; 2]]) -> Parts {
    let mut seen = vec![false; pairs.len()];
    let mut parts = Parts {
        serves: true,
        number: 0,
    };
    for place in 0..pairs.len() {
        if !seen[place] {
            let (points, ends) = walk(place, pairs, &mut seen);
            parts.number += 1;
            if ends / 2 > points {
                parts.serves = false;
            }
        }
    }
    parts
}

/// Goes from a place not seen yet to all that can be reached from it (a depth-first search), and counts
/// the places and the ends of tags that are met.
fn walk(place: usize, pairs: &[[usize; 2]], seen: &mut [bool]) -> (usize, usize) {
    seen[place] = true;
    let (mut points, mut ends) = (1, 0);
    for &[first, second] in pairs {
        for (here, there) in [(first, second), (second, first)] {
            if here != place {
                continue;
            }
            ends += 1;
            if !seen[there] {
                let further = walk(there, pairs, seen);
                points += further.0;
                ends += further.1;
            }
        }
    }
    (points, ends)
}

/// The number of filling sequences of a group under a seed, counted over all 2^n: "When a seed serves n
/// tags on n places, the number of filling sequences is 2 to the power of the number of parts" (document
/// 02, §8).
pub fn filling_sequences(tags: &[u32], seed: u32) -> u64 {
    let pairs = pairs_under(tags, seed);
    let fills = |word: &u64| {
        let mut taken = 0u32;
        pairs.iter().enumerate().all(|(index, pair)| {
            let place = 1 << pair[(word >> index & 1) as usize];
            let free = taken & place == 0;
            taken |= place;
            free
        })
    };
    (0..1 << tags.len()).filter(fills).count() as u64
}
