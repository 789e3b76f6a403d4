//! Placing one group: the first seed that serves it, and of the choice sequences that fill it the one
//! with the fewest second places.

use crate::hash::place_of;
use crate::refusal::{refuse, refuse_at, Refusal};

/// "A group may now hold 32 tags" (document 02, §2).
pub const LARGEST_GROUP: usize = 32;

/// "L is the seed limit, 1 to 65,536"
pub const LARGEST_LIMIT: u32 = 65_536;

/// "Plant numbering now reserves tag 0 for an unwired point" (document 02, §1).
pub const UNWIRED: u32 = 0;

/// "**Placing a group.** 4: L not 1 to 65,536. 5: more than [32] tags. 6: not strictly ascending
/// [..] 7: no seed below L has a filling sequence. Otherwise seed and choice word." Between 6 and 7:
/// "17 if the first tag is 0, directly after 6 in placing and building" (document 02, §1).
///
/// "An empty group has seed 0 and word 0": seed 0 serves it, since it has no place to fill.
pub fn place_group(tags: &[u32], limit: u32) -> Result<(u32, u32), Refusal> {
    if !limit_is_legal(limit) {
        return refuse(4);
    }
    if tags.len() > LARGEST_GROUP {
        return refuse(5);
    }
    if let Some(index) = first_not_ascending(tags) {
        return refuse_at(6, index);
    }
    if first_is_unwired(tags) {
        return refuse(17);
    }
    match first_seed(tags, limit) {
        None => refuse(7),
        Some(seed) => {
            let word = word_taken(tags, seed).expect("a seed that serves has a filling sequence");
            Ok((seed, word))
        }
    }
}

/// "The search stops at the first seed that some choice sequence fills." The limit and the group are in
/// order.
pub fn first_seed(tags: &[u32], limit: u32) -> Option<u32> {
    (0..limit).find(|&seed| serves(tags, seed))
}

/// Whether L is 1 to 65,536.
pub fn limit_is_legal(limit: u32) -> bool {
    (1..=LARGEST_LIMIT).contains(&limit)
}

/// "not strictly ascending, at the first index whose tag is not above the one before."
pub fn first_not_ascending(tags: &[u32]) -> Option<usize> {
    (1..tags.len()).find(|&index| tags[index] <= tags[index - 1])
}

/// "if the first tag is 0" (document 02, §1). The empty list has no first tag. In a list that ascends
/// no other tag can be 0.
pub fn first_is_unwired(tags: &[u32]) -> bool {
    tags.first() == Some(&UNWIRED)
}

/// Both places of a tag in a group of n tags, that of choice 0 first. They may be equal.
pub(crate) fn both_places(n: usize, seed: u32, tag: u32) -> [usize; 2] {
    [0, 1].map(|choice| place_of(n as u32, seed, choice, tag) as usize)
}

/// Whether some choice sequence fills a group of at most 32 tags under the seed.
///
/// Places are points and each tag is an edge between its two places. A filling sequence exists if
/// and only if no connected part has more tags than places: then each part is a tree or has one
/// cycle (document 001, section 2, a pseudoforest). Two tags with the same two places are a cycle
/// of length 2; a tag with equal places is a cycle of length 1. The early drop is not needed: an
/// untouched place leaves the other n - 1 places to n tags, so some part has too many.
pub fn serves(tags: &[u32], seed: u32) -> bool {
    let mut parts = Parts::alone(tags.len());
    for &tag in tags {
        let [first, second] = both_places(tags.len(), seed, tag);
        parts.connect(first, second);
    }
    parts.none_has_more_tags_than_places()
}

/// The connected parts of a group's places (union-find); each part counts its places and tags.
struct Parts {
    n: usize,
    /// The place above this one in its part's tree; the root stands above itself.
    above: [usize; LARGEST_GROUP],
    /// The counts of a part stand at its root.
    places: [usize; LARGEST_GROUP],
    tags: [usize; LARGEST_GROUP],
}

impl Parts {
    /// Every place alone, without a tag.
    fn alone(n: usize) -> Parts {
        let mut above = [0; LARGEST_GROUP];
        for (place, root) in above.iter_mut().enumerate() {
            *root = place;
        }
        Parts {
            n,
            above,
            places: [1; LARGEST_GROUP],
            tags: [0; LARGEST_GROUP],
        }
    }

    fn root(&self, place: usize) -> usize {
        let mut root = place;
        while self.above[root] != root {
            root = self.above[root];
        }
        root
    }

    /// Adds a tag between two places of one part or of two, which become one.
    fn connect(&mut self, first: usize, second: usize) {
        let (kept, joined) = (self.root(first), self.root(second));
        if kept != joined {
            self.above[joined] = kept;
            self.places[kept] += self.places[joined];
            self.tags[kept] += self.tags[joined];
        }
        self.tags[kept] += 1;
    }

    fn none_has_more_tags_than_places(&self) -> bool {
        (0..self.n)
            .filter(|&place| self.above[place] == place)
            .all(|root| self.tags[root] <= self.places[root])
    }
}

/// The choice word of the filling sequence that is taken, or nothing if none fills the group.
///
/// "Among the sequences that fill a group under its least seed, the one with the fewest ones is now
/// taken, and only between equals does the lowest tag decide, 0 before 1. Writing follows the rule too"
/// (document 02, §6), under whatever seed the plan has. "The choice word has bit i equal to the choice
/// of the tag with index i; all higher bits are 0." In a group of 32 tags "the choice word uses all 32
/// bits" (document 02, §2).
pub fn word_taken(tags: &[u32], seed: u32) -> Option<u32> {
    let n = tags.len();
    let mut room = [[0; 2]; LARGEST_GROUP];
    let pairs = &mut room[..n];
    for (pair, &tag) in pairs.iter_mut().zip(tags) {
        *pair = both_places(n, seed, tag);
    }
    word_of_pairs(pairs)
}

/// The same for at most 32 tags that have these pairs of places, all below 32. There may be more places
/// than tags: then some stay free.
///
/// Tags of different connected parts never meet, so each part is decided alone. The ones of a sequence
/// are those of its parts added up, so it has the fewest exactly if each part has. The lowest tag on
/// which two sequences differ lies in one part and is the lowest of that part on which they do, so it
/// decides there what it decides in the whole.
pub fn word_of_pairs(pairs: &[[usize; 2]]) -> Option<u32> {
    let mut word = 0;
    let mut decided = 0u32;
    for tag in 0..pairs.len() {
        if decided >> tag & 1 == 0 {
            let part = Part::around(tag, pairs);
            decided |= part.members;
            word |= part.word_taken(pairs)?;
        }
    }
    Some(word)
}

/// What is compared of two sequences, as words: the one for which this is less is taken. Bit 0, the
/// choice of the lowest tag, counts most among equals.
fn order(word: u32) -> (u32, u32) {
    (word.count_ones(), word.reverse_bits())
}

/// The tags of a connected part, in an order in which each meets a place of some tag before it. Bit i of
/// `members` is the tag with index i.
struct Part {
    tags: [usize; LARGEST_GROUP],
    count: usize,
    members: u32,
}

impl Part {
    /// The part of a tag.
    fn around(tag: usize, pairs: &[[usize; 2]]) -> Part {
        let mut part = Part {
            tags: [0; LARGEST_GROUP],
            count: 0,
            members: 0,
        };
        let mut reached = 0u32;
        let mut next = Some(tag);
        while let Some(tag) = next {
            part.tags[part.count] = tag;
            part.count += 1;
            part.members |= 1 << tag;
            reached |= places_of(pairs[tag]);
            next = (0..pairs.len()).find(|&other| {
                part.members >> other & 1 == 0 && places_of(pairs[other]) & reached != 0
            });
        }
        part
    }

    /// The first in order of all sequences that give the tags of this part different places; the choices
    /// of other tags are 0. Nothing if there is no such sequence.
    fn word_taken(&self, pairs: &[[usize; 2]]) -> Option<u32> {
        let mut first = None;
        list_sequences(&self.tags[..self.count], pairs, 0, 0, &mut |word| {
            if first.is_none_or(|other| order(word) < order(other)) {
                first = Some(word);
            }
        });
        first
    }
}

/// A pair of places as a word, with one bit or two.
fn places_of([first, second]: [usize; 2]) -> u32 {
    1 << first | 1 << second
}

/// Lists, by backtracking, each sequence that continues `word` by choices of these tags that give them
/// different places outside the taken ones.
///
/// There are few, since each tag meets one before it: k tags of a part reach k + 1 places at most. If
/// they reach k + 1, a sequence is known by the place that it leaves free; if k, it leaves none, and the
/// two ways round the one cycle are all there is; fewer are too few.
fn list_sequences(
    tags: &[usize],
    pairs: &[[usize; 2]],
    taken: u32,
    word: u32,
    listed: &mut impl FnMut(u32),
) {
    let Some((&tag, following)) = tags.split_first() else {
        return listed(word);
    };
    for (choice, place) in pairs[tag].into_iter().enumerate() {
        if taken >> place & 1 == 0 {
            let word = word | (choice as u32) << tag;
            list_sequences(following, pairs, taken | 1 << place, word, listed);
        }
    }
}
