//! The order of choices, document 02, §6: every group of up to five tags, by its pairs of places; and
//! groups of up to 32 tags, placed and written under seeds that serve them.

use model::hash::{multiplier, place_of};
use model::placing::{serves, LARGEST_GROUP};
use random::Random;

use crate::groups::{self, Key};
use crate::lists::Case;
use crate::plans::plan;
use crate::tagless::multiples;
use crate::tally::Tally;
use crate::Size;

pub fn compare(tally: &mut Tally, random: &mut Random, size: &Size) {
    for n in 1..=size.every_pair {
        every_group(tally, n);
    }
    for n in 1..=LARGEST_GROUP {
        for _ in 0..size.choices {
            for (kind, keys) in shapes(random, n) {
                tally.kind(kind);
                made(tally, random, &keys);
            }
        }
        // About one seed in (e / 2)^n serves n tags, so large groups take their time.
        let rounds = size.choices.div_ceil(1 << (n / 4));
        for _ in 0..rounds {
            let drawn = groups::group(random, n).into_iter();
            for (kind, tags) in drawn.chain(multiples(random, n)) {
                if tags.len() == n && tags[0] != 0 {
                    tally.kind(kind);
                    under_seeds_that_serve(tally, random, &tags);
                }
            }
        }
    }
}

/// Of all groups of n tags by their pairs of places: how many seed 1 serves, in how many of these several
/// sequences have the fewest ones, and how many the lowest tag alone would fill otherwise.
pub const SERVED: [(u64, u64, u64); 5] = [
    (1, 0, 0),
    (14, 2, 0),
    (522, 90, 12),
    (37_272, 7_128, 1_488),
    (4_337_400, 881_400, 236_400),
];

/// Places one group for each sequence of n pairs of places, of which there are n^(2n), from one tag to
/// five. Under seed 1 its tags have these places; seed 0 does not serve it, as none of its tags has the
/// place 0 there. A single tag has one place under every seed, and seed 0.
fn every_group(tally: &mut Tally, n: usize) {
    tally.kind("every sequence of pairs of places");
    let pairs = n * n;
    let known: Vec<Vec<u32>> = (0..n)
        .map(|index| (0..pairs).map(|pair| tag_with(n, index, pair)).collect())
        .collect();
    let before = *tally.choices();
    let mut tags = vec![0; n];
    for number in 0..pairs.pow(n as u32) {
        let mut digits = number;
        for (tag, known) in tags.iter_mut().zip(&known) {
            *tag = known[digits % pairs];
            digits /= pairs;
        }
        let (answer, _) = tally.place(&tags, 2, number as u32);
        assert!(answer == u64::from(n > 1) || answer == 7 << 32);
    }
    let (groups, equals, unlike) = SERVED[n - 1];
    let met = tally.choices().since(&before);
    assert_eq!(
        (met.groups, met.equals, met.unlike),
        (groups, equals, unlike)
    );
    tally.every_group(n, pairs.pow(n as u32) as u64, groups);
}

/// A tag in the fifth of all numbers with this index that has the pair of places under seed 1 in a group
/// of n tags, and not the place 0 under seed 0, unless there is no other.
pub fn tag_with(n: usize, index: usize, pair: usize) -> u32 {
    let fifth = u32::MAX / 5;
    let from = 1 + index as u32 * fifth;
    let places = |seed, tag| [0, 1].map(|choice| place_of(n as u32, seed, choice, tag) as usize);
    (from..=from + (fifth - 1))
        .find(|&tag| {
            places(1, tag) == [pair % n, pair / n] && (n == 1 || !places(0, tag).contains(&0))
        })
        .expect("every pair of places has tags")
}

/// Pairs of places whose graph has cycles, in which the order of choices decides, and others. The places
/// are renamed and the pairs turned round at random.
pub fn shapes(random: &mut Random, n: usize) -> Vec<(&'static str, Vec<Key>)> {
    let first = random.within(1, n);
    let mut all = vec![
        ("one long cycle", groups::cycle(n)),
        (
            "two cycles",
            beside(groups::cycle(first), groups::cycle(n - first)),
        ),
        ("many cycles of two", groups::double_edges(n)),
        ("trees on one cycle", trees(random, groups::cycle(first), n)),
        ("trees on equal places", trees_on_equal_places(random, n)),
        ("paths", groups::path(n)),
        ("several parts", groups::several_parts(random, n)),
        ("functions", groups::function(random, n)),
    ];
    for (_, keys) in &mut all {
        rename(random, n, keys);
    }
    all
}

/// Gives the n places other names, and turns some pairs round.
pub fn rename(random: &mut Random, n: usize, keys: &mut [Key]) {
    let mut names: Vec<usize> = (0..n).collect();
    random.shuffle(&mut names);
    for key in keys {
        *key = key.map(|place| names[place]);
        key.swap(0, random.below(2));
    }
}

/// Two graphs on different places.
fn beside(mut keys: Vec<Key>, others: Vec<Key>) -> Vec<Key> {
    let from = keys.len();
    keys.extend(others.iter().map(|key| key.map(|place| from + place)));
    keys
}

/// Further tags up to n, each between a new place and one before it.
fn trees(random: &mut Random, mut keys: Vec<Key>, n: usize) -> Vec<Key> {
    keys.extend((keys.len()..n).map(|place| [place, random.below(place)]));
    keys
}

/// About a third of the tags have a place twice, the others hang on them.
fn trees_on_equal_places(random: &mut Random, n: usize) -> Vec<Key> {
    let mut keys = Vec::new();
    for place in 0..n {
        let alone = place == 0 || random.below(3) == 0;
        let other = if alone { place } else { random.below(place) };
        keys.push([place, other]);
    }
    keys
}

/// Places a group that has these pairs of places under a low seed, and writes it under that seed; and
/// writes one that has them under any seed.
fn made(tally: &mut Tally, random: &mut Random, keys: &[Key]) {
    // As in `groups::shaped`, from n / 8 on every pair has tags.
    let low = (keys.len() / 4 + random.below(2)) as u32;
    let tags = tags_with(random, keys, low);
    let (answer, _) = tally.place(&tags, low + 1, random.next_u64() as u32);
    tally.made_for(answer, low);
    write(tally, &tags, low);
    let any = random.within(LARGEST_GROUP / 4, 65_535) as u32;
    let tags = tags_with(random, keys, any);
    write(tally, &tags, any);
    tally.chosen(2);
}

/// Writes a list of one group under a seed that serves it.
fn write(tally: &mut Tally, tags: &[u32], seed: u32) {
    let case = Case::new(1, 1, tags);
    let answer = tally.write(&case.text(), &plan(&[seed]), case.length());
    assert_eq!(answer, case.length() as u64);
}

/// Ascending tags with these pairs of places under the seed, whichever tag has which.
pub fn tags_with(random: &mut Random, keys: &[Key], seed: u32) -> Vec<u32> {
    let n = keys.len() as u64;
    let inverse = inverse_of(multiplier(seed, 0) as u32);
    let mut tags = Vec::with_capacity(keys.len());
    for &[first, second] in keys {
        // The products that have the first place, and the tags that have these products.
        let [from, to] = [first, first + 1].map(|place| ((place as u64) << 32).div_ceil(n));
        loop {
            let product = from + random.next_u64() % (to - from);
            let tag = (product as u32).wrapping_mul(inverse);
            let other = place_of(n as u32, seed, 1, tag) as usize;
            if other == second && tag != 0 && !tags.contains(&tag) {
                tags.push(tag);
                break;
            }
        }
    }
    tags.sort_unstable();
    tags
}

/// The number that makes 1 with an odd one, modulo 2^32: each step doubles the bits that are right.
fn inverse_of(odd: u32) -> u32 {
    // Three bits are right: the square of an odd number is 1 modulo 8.
    (0..4).fold(odd, |inverse, _| {
        inverse.wrapping_mul(2u32.wrapping_sub(odd.wrapping_mul(inverse)))
    })
}

/// Writes a group under the next two seeds that serve it from any seed on, and places it where that is
/// soon done.
fn under_seeds_that_serve(tally: &mut Tally, random: &mut Random, tags: &[u32]) {
    let from = random.below(65_536) as u32;
    let tried = (16usize << (tags.len() / 2)).min(20_000);
    let seeds: Vec<u32> = (from..65_536)
        .chain(0..from)
        .take(tried)
        .filter(|&seed| serves(tags, seed))
        .take(2)
        .collect();
    for &seed in &seeds {
        write(tally, tags, seed);
    }
    if !seeds.is_empty() {
        if tags.len() <= 16 {
            tally.place(tags, 65_536, from);
        }
        tally.chosen(1);
    }
}
