//! The word of a group: tags get their choices from it, and no tag need be stored.
//!
//! The papers leave the method open, and the model takes another one than the proved crates, which have
//! an equation for each place: here the sequences that fill come first, and the bits of the word are
//! taken one by one for the sequences that they make.

use crate::hash::{place_of, K};
use crate::placing::{self, both_places, serves};

const TWO_TO_32: u64 = 1 << 32;

/// "the row is ((2s + 1) × K mod 2^32) × t mod 2^32 for seed s."
pub fn row_of(seed: u32, tag: u32) -> u32 {
    let multiplier = (2 * u64::from(seed) + 1) * K % TWO_TO_32;
    (multiplier * u64::from(tag) % TWO_TO_32) as u32
}

/// "The choice of tag t is the parity of the ones in its row AND the word"
pub fn choice_of(seed: u32, word: u32, tag: u32) -> u32 {
    (row_of(seed, tag) & word).count_ones() % 2
}

/// "A seed is taken exactly when some 32-bit word makes the group's places all different: the least
/// seed, then the numerically least word."
///
/// "An empty group has 0 and 0": it has no place, so that every word serves it under every seed. The
/// limit and the group are in order.
pub fn first_seed_and_word(tags: &[u32], limit: u32) -> Option<(u32, u32)> {
    (0..limit).find_map(|seed| Some((seed, least_word(tags, seed)?)))
}

/// The numerically least word that makes the places of a group all different under the seed, or nothing
/// if no word does. A seed can have sequences that fill, and no word that makes one of them.
///
/// A word makes the sequence of its tags' choices, and two words together (exclusive or) make the two
/// sequences together. So a word of one bit makes a column: the tags whose rows have that bit. A word
/// serves exactly if its columns together are a sequence that fills, which is one such sequence with
/// some of its cycles turned round.
///
/// A bit whose column the lower bits and the cycles make together is not in the least word: without it,
/// and with those lower bits changed, the word is less. The other bits make each sequence in one way at
/// most, so what they make the sequence with is the least word.
pub fn least_word(tags: &[u32], seed: u32) -> Option<u32> {
    if !touches_every_place(tags, seed) || !serves(tags, seed) {
        return None;
    }
    // Any sequence that fills does; the order in which placing takes one has no part in the word.
    let filling =
        placing::word_taken(tags, seed).expect("a seed that serves has a filling sequence");
    let mut made = Made::default();
    for cycle in cycles(tags, seed, filling) {
        made.add(cycle, 0);
    }
    for bit in 0..32 {
        made.add(column(tags, seed, bit), 1 << bit);
    }
    made.word_of(filling)
}

/// "the number of places touched must equal n": a seed that leaves some place untouched is dropped
/// early.
fn touches_every_place(tags: &[u32], seed: u32) -> bool {
    let n = tags.len() as u32;
    let touched = tags.iter().fold(0u32, |touched, &tag| {
        touched | 1 << place_of(n, seed, 0, tag) | 1 << place_of(n, seed, 1, tag)
    });
    touched.count_ones() == n
}

/// The choices that the word of this bit alone makes: bit i is the choice of the tag with index i.
fn column(tags: &[u32], seed: u32, bit: u32) -> u32 {
    let choices = tags.iter().map(|&tag| choice_of(seed, 1 << bit, tag));
    sequence(choices)
}

/// A sequence of choices as a number: bit i is the choice of the tag with index i.
fn sequence(choices: impl Iterator<Item = u32>) -> u32 {
    let bits = choices.enumerate().map(|(index, choice)| choice << index);
    bits.fold(0, |sequence, bit| sequence | bit)
}

/// The cycles of a group under a sequence that fills it, each as the bits of its tags.
///
/// A tag can take its other place only if the tag that stands there takes its own other place, and so on
/// until a tag comes again: these tags are a cycle, and can be turned round together. A tag with two
/// equal places is a cycle by itself. There is one cycle in each connected part, which has as many tags
/// as places, and the sequences that fill differ in whole cycles: 2 to the power of the number of parts.
fn cycles(tags: &[u32], seed: u32, filling: u32) -> Vec<u32> {
    let n = tags.len();
    let place = |index: usize, turned: u32| {
        let choice = (filling >> index & 1) ^ turned;
        both_places(n, seed, tags[index])[choice as usize]
    };
    let mut standing = vec![0; n];
    for index in 0..n {
        standing[place(index, 0)] = index;
    }
    let next: Vec<usize> = (0..n).map(|index| standing[place(index, 1)]).collect();
    let mut cycles = Vec::new();
    for first in 0..n {
        // After n steps every way has come to its cycle.
        let mut index = (0..n).fold(first, |index, _| next[index]);
        let mut cycle = 0u32;
        while cycle >> index & 1 == 0 {
            cycle |= 1 << index;
            index = next[index];
        }
        if !cycles.contains(&cycle) {
            cycles.push(cycle);
        }
    }
    cycles
}

/// Sequences of choices, each with the word that makes it up to cycles, such that no others of them make
/// it together. No two have the same highest tag.
#[derive(Default)]
struct Made {
    by_highest: [Option<(u32, u32)>; 32],
}

impl Made {
    /// Takes out of a sequence, from its highest tag on, what these make: what is left, and the word.
    fn without(&self, sequence: u32) -> (u32, u32) {
        let mut left = (sequence, 0);
        for tag in (0..32).rev() {
            match self.by_highest[tag] {
                Some((sequence, word)) if left.0 >> tag & 1 == 1 => {
                    left = (left.0 ^ sequence, left.1 ^ word);
                }
                _ => (),
            }
        }
        left
    }

    /// Adds a sequence, unless the others make it together.
    fn add(&mut self, sequence: u32, word: u32) {
        let (left, others) = self.without(sequence);
        if left != 0 {
            self.by_highest[left.ilog2() as usize] = Some((left, word ^ others));
        }
    }

    /// The word that makes the sequence up to cycles, or nothing if none does.
    fn word_of(&self, sequence: u32) -> Option<u32> {
        let (left, word) = self.without(sequence);
        (left == 0).then_some(word)
    }
}
