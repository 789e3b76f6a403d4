//! Counting parts, document 02, §8: every group of up to four tags by its pairs of places, and of five
//! tags by its graph; groups of up to 32 tags whose graphs have a given shape, and drawn ones, under seeds
//! from all of their range; the seeds that placing passes over; and every refusal.

use model::placing::LARGEST_GROUP;
use random::Random;

use crate::choices::{self, rename, tag_with, tags_with, SERVED};
use crate::groups::{
    self, filled_under, group, without_place_0, Key, ALL_KINDS_OF_BITS, CLOSE_25, CLOSE_32,
    FEWEST_SECOND_PLACES, LAST_SEED, LOLLIPOP, PATH, PATH_TO_BE_MOVED_ALONG,
};
use crate::lists::{behind_0, different, FIVE_ON_FOUR_PLACES, WITHOUT_PLACE_2};
use crate::plans::all_sets;
use crate::tagless::multiples;
use crate::tally::{Operation, Tally};
use crate::Size;

pub fn compare(tally: &mut Tally, random: &mut Random, size: &Size) {
    chosen(tally, size);
    refusals(tally, random);
    for _ in 0..size.due {
        due_at_once(tally, random);
    }
    for n in 1..=size.every_pair.min(4) {
        every_group(tally, n);
    }
    if size.every_pair > 4 {
        every_graph_of_five(tally, random);
    }
    for n in 0..=LARGEST_GROUP + 1 {
        for _ in 0..size.parts {
            let shapes = (groups::shapes(random, n).into_iter())
                .chain(choices::shapes(random, n.max(1)))
                .chain(shapes(random, n));
            for (kind, keys) in shapes {
                tally.kind(kind);
                made(tally, random, &keys);
            }
            let drawn = group(random, n).into_iter();
            for (kind, tags) in drawn.chain(multiples(random, n)) {
                tally.kind(kind);
                under_seeds(tally, random, &tags);
            }
            filled(tally, random, n);
        }
        // About one seed in (e / 2)^n serves n tags, so large groups take their time.
        for _ in 0..(4 * size.parts).div_ceil(1 << (n / 4)) {
            for (kind, tags) in group(random, n) {
                tally.kind(kind);
                let limit = if n < 16 { 65_536 } else { 8_192 };
                tally.parts_beside_placing(&tags, limit);
            }
        }
    }
}

/// The answer for so many parts under a seed that serves, and under one that does not.
fn served(parts: u64) -> u64 {
    2 * parts + 1
}

fn not_served(parts: u64) -> u64 {
    2 * parts
}

/// Groups with a known answer, which is asserted too; and such that no seed or only the last one serves,
/// under many seeds.
fn chosen(tally: &mut Tally, size: &Size) {
    tally.kind("chosen groups");
    for (tags, seed, answer) in [
        (&[][..], 0, served(0)),
        (&[], 65_535, served(0)),
        (&[7], 65_535, served(1)),
        (&[1, 2], 0, served(1)),
        (&[1, 3], 0, not_served(2)),
        (&[1, 3], 1, served(1)),
        (&[599, 1_193], 0, served(1)),
        (&[1, 5, 14, 18], 0, served(2)),
        (&PATH, 0, served(1)),
        (&PATH_TO_BE_MOVED_ALONG, 0, served(1)),
        (&LOLLIPOP, 0, served(1)),
        (&ALL_KINDS_OF_BITS, 0, served(5)),
        (&FEWEST_SECOND_PLACES, 0, served(7)),
        (&CLOSE_25, 0, served(2)),
        (&CLOSE_32, 0, served(3)),
        (&LAST_SEED, 65_535, served(1)),
    ] {
        assert_eq!(tally.count_parts(tags, seed), answer, "{tags:?}");
    }
    tally.kind("groups that no seed serves, or the last one alone");
    for (tags, last) in [
        (&WITHOUT_PLACE_2[..], 0),
        (&FIVE_ON_FOUR_PLACES, 0),
        (&without_place_0(), 0),
        (&groups::two_on_place_0(), 0),
        (&LAST_SEED, 1),
    ] {
        for seed in (0..65_535).step_by(size.seed_step).chain([65_535]) {
            let serves = tally.count_parts(tags, seed) % 2;
            assert_eq!(serves, u64::from(seed == 65_535) * last);
        }
    }
}

/// Each refusal, at its limits and one step before.
fn refusals(tally: &mut Tally, random: &mut Random) {
    tally.kind("ranges of seeds");
    for tags in [&[][..], &[7], &[1, 3], &PATH] {
        for seed in [0, 1, 65_534, 65_535, 65_536, 65_537, 1 << 31, u32::MAX] {
            tally.count_parts(tags, seed);
        }
    }
    tally.kind("32 tags and more");
    for count in [31, 32, 33, 34, 48, 64, 4_097] {
        let tags = different(count, || random.tag());
        for seed in [0, 65_535] {
            tally.count_parts(&tags, seed);
        }
    }
    tally.kind("tag 0 in a group");
    for count in [0, 1, 2, 24, 30, 31] {
        let tags = different(count, || random.tag());
        for seed in [0, 65_535] {
            tally.count_parts(&behind_0(&tags), seed);
        }
    }
    // 6 at every index, by an equal tag, a lower one and 0; of two the first is named.
    tally.kind("groups that do not ascend");
    for count in [2, 3, 25, 31, 32] {
        let tags = different(count, || random.tag());
        for index in 1..count {
            for lower in [tags[index - 1], tags[0], 0] {
                let mut changed = tags.clone();
                changed[index] = lower;
                tally.count_parts(&changed, 9);
                changed[count - 1] = 0;
                tally.count_parts(&changed, 9);
            }
        }
    }
}

/// All sets of refusals due at once: the first in the order written decides.
fn due_at_once(tally: &mut Tally, random: &mut Random) {
    tally.kind("several conditions at once");
    for due in all_sets(Operation::CountingParts.order()) {
        let seed = match due.contains(&2) {
            true => [65_536, 65_537, u32::MAX][random.below(3)],
            false => [0, 65_535, random.below(65_536) as u32][random.below(3)],
        };
        let count = match due.contains(&5) {
            true => random.within(33, 40),
            false => random.within(2, 32),
        };
        let mut tags = different(count, || random.tag());
        if due.contains(&17) {
            tags[0] = 0;
        }
        if due.contains(&6) {
            let index = random.within(1, count - 1);
            tags[index] = tags[random.below(index)];
        }
        let answer = tally.count_parts(&tags, seed);
        tally.due(Operation::CountingParts, &due, answer);
    }
}

/// One group for each sequence of n pairs of places, of which there are n^(2n), from one tag to four.
fn every_group(tally: &mut Tally, n: usize) {
    tally.kind("every sequence of pairs of places");
    let pairs = n * n;
    let known: Vec<Vec<u32>> = (0..n)
        .map(|index| (0..pairs).map(|pair| tag_with(n, index, pair)).collect())
        .collect();
    let mut tags = vec![0; n];
    let mut serving = 0;
    for number in 0..pairs.pow(n as u32) {
        let mut digits = number;
        for (tag, known) in tags.iter_mut().zip(&known) {
            *tag = known[digits % pairs];
            digits /= pairs;
        }
        serving += tally.count_parts(&tags, 1) % 2;
    }
    assert_eq!(serving, SERVED[n - 1].0);
}

/// One group of five tags for each sequence of pairs of places that are not told apart from their
/// opposites, 15^5; which of the two a tag has is left to chance.
fn every_graph_of_five(tally: &mut Tally, random: &mut Random) {
    tally.kind("every sequence of edges of five tags");
    const N: usize = 5;
    let edges: Vec<[usize; 2]> = (0..N)
        .flat_map(|first| (first..N).map(move |second| [first, second]))
        .collect();
    // The tag of each index for an edge in its two directions.
    let known: Vec<Vec<[u32; 2]>> = (0..N)
        .map(|index| {
            let tag = |first, second| tag_with(N, index, second * N + first);
            let both = |&[first, second]: &[usize; 2]| [tag(first, second), tag(second, first)];
            edges.iter().map(both).collect()
        })
        .collect();
    let mut tags = [0; N];
    // A graph stands for as many sequences of pairs as its edges can be turned round.
    let (mut all, mut serving) = (0, 0);
    for number in 0..edges.len().pow(N as u32) {
        let (mut digits, mut directions) = (number, 1);
        for (tag, known) in tags.iter_mut().zip(&known) {
            let edge = digits % edges.len();
            digits /= edges.len();
            *tag = known[edge][random.below(2)];
            directions *= if edges[edge][0] == edges[edge][1] {
                1
            } else {
                2
            };
        }
        all += directions;
        serving += directions * (tally.count_parts(&tags, 1) % 2);
    }
    assert_eq!((all, serving), (9_765_625, SERVED[N - 1].0));
}

/// Graphs in which some part has too many edges, or hardly not: edges at random, edges between few of the
/// places, all edges on one, and graphs that are served with one edge moved. The places are renamed and
/// the pairs turned round at random.
fn shapes(random: &mut Random, n: usize) -> Vec<(&'static str, Vec<Key>)> {
    let few = random.within(1, n.max(1));
    let mut any = |places: usize| -> Vec<Key> {
        let mut key = || [random.below(places), random.below(places)];
        (0..n).map(|_| key()).collect()
    };
    let (everywhere, on_few) = (any(n), any(few));
    let mut moved = groups::several_parts(random, n);
    let mut moved_in_functions = groups::function(random, n);
    for keys in [&mut moved, &mut moved_in_functions] {
        if n > 0 {
            keys[random.below(n)] = [random.below(n), random.below(n)];
        }
    }
    let mut all = vec![
        ("edges at random", everywhere),
        ("edges between few places", on_few),
        ("edges on one place", vec![[0, 0]; n]),
        ("several parts, one edge moved", moved),
        ("functions, one edge moved", moved_in_functions),
    ];
    for (_, keys) in &mut all {
        rename(random, n, keys);
    }
    all
}

/// Groups that have these pairs of places under a low seed, under any and under the greatest.
fn made(tally: &mut Tally, random: &mut Random, keys: &[Key]) {
    // As in `groups::shaped`, from n / 8 on every pair has tags.
    let low = keys.len() / 4 + random.below(2);
    let any = random.within(LARGEST_GROUP / 4, 65_535);
    for seed in [low, any, 65_535] {
        let tags = tags_with(random, keys, seed as u32);
        tally.parts_of_made(&tags, seed as u32);
    }
}

/// A group that was drawn, under seeds at both ends of their range and between.
fn under_seeds(tally: &mut Tally, random: &mut Random, tags: &[u32]) {
    let any = [(); 3].map(|()| random.below(65_536) as u32);
    for seed in [0, 1, 65_534, 65_535].into_iter().chain(any) {
        tally.parts_of_made(tags, seed);
    }
}

/// Groups that a sequence fills under a seed, and the same with one tag exchanged for another.
fn filled(tally: &mut Tally, random: &mut Random, n: usize) {
    for seed in [0, 1, random.below(65_536) as u32, 65_535] {
        tally.kind("groups made from a sequence that fills");
        let mut tags = filled_under(random, n, seed);
        let answer = tally.parts_of_made(&tags, seed);
        assert!(answer % 2 == 1 || n > LARGEST_GROUP);
        if n > 0 {
            tally.kind("groups made from a sequence that fills, one tag exchanged");
            tags[random.below(n)] = random.tag();
            tags.sort_unstable();
            tally.parts_of_made(&tags, seed);
        }
    }
}
