//! What several test files use: the whole case, groups with a known fate.

use model::hash::place_of;
use model::Refusal;

/// The whole case of the paper: the list text.
pub const WHOLE_CASE_TEXT: &[u8] = b"    2    9\n         1\n         2\n         3\n";

/// The whole case of the paper: the image, 66 bytes.
pub const WHOLE_CASE_IMAGE: &[u8] =
    b"    3    2\n    0    0\n    1    1\n         2\n         1\n         3\n";

pub fn refusal(number: u32, place: u64) -> Refusal {
    Refusal { number, place }
}

/// A copy of a text with one line replaced by another of 11 bytes.
pub fn with_line(text: &[u8], index: usize, line: &[u8]) -> Vec<u8> {
    assert_eq!(line.len(), 11);
    let mut changed = text.to_vec();
    changed[11 * index..11 * (index + 1)].copy_from_slice(line);
    changed
}

/// Both places of each tag under a seed.
pub fn places(tags: &[u32], seed: u32) -> Vec<[u32; 2]> {
    let n = tags.len() as u32;
    tags.iter()
        .map(|&tag| [place_of(n, seed, 0, tag), place_of(n, seed, 1, tag)])
        .collect()
}

/// The places that a choice word gives the tags.
pub fn chosen_places(tags: &[u32], seed: u32, word: u32) -> Vec<u32> {
    let pairs = places(tags, seed);
    (0..tags.len())
        .map(|index| pairs[index][(word >> index & 1) as usize])
        .collect()
}

/// "It fills the group under a seed if the n chosen places are all different."
pub fn fills(tags: &[u32], seed: u32, word: u32) -> bool {
    all_different(&places(tags, seed), word)
}

/// Whether a choice word gives different places to tags with these pairs of places.
pub fn all_different(pairs: &[[u32; 2]], word: u32) -> bool {
    let mut taken = 0u32;
    pairs.iter().enumerate().all(|(index, pair)| {
        let place = 1 << pair[(word >> index & 1) as usize];
        let free = taken & place == 0;
        taken |= place;
        free
    })
}

/// All words of n choices, in the order of document 02, §6: the one with fewer ones first, and between
/// equals the one that has 0 for the lowest tag on which they differ.
pub fn in_order(n: usize) -> Vec<u32> {
    let mut words = lowest_tag_first(n);
    // Sorting keeps the order of equals.
    words.sort_by_key(|word| word.count_ones());
    words
}

/// All words of n choices, in the order before: the lowest tag's choice is the leading digit.
pub fn lowest_tag_first(n: usize) -> Vec<u32> {
    let word = |rank: u32| {
        let choices = (0..n).map(|index| (rank >> (n - 1 - index) & 1) << index);
        choices.sum()
    };
    (0..1 << n).map(word).collect()
}

/// The word that is taken for tags with these pairs of places, by trying all 2^n.
pub fn taken_by_brute_force(pairs: &[[u32; 2]]) -> Option<u32> {
    let mut words = in_order(pairs.len()).into_iter();
    words.find(|&word| all_different(pairs, word))
}

/// A tag that G takes to 1, so that a multiplier takes it to 4s + 2c + 1, which is below 2^18: it has
/// the place 0 under every seed, in every group of up to 32 tags.
pub const ALWAYS_AT_0: u32 = 244_002_641;

/// 32 tags that no seed serves, since place 0 is never reached: the 31 multiples of 2^27 have the
/// other places, one each, and half of 2^32 more than `ALWAYS_AT_0` has the place 16.
pub fn group_without_seed() -> Vec<u32> {
    let mut tags: Vec<u32> = (1..=31).map(|k| k << 27).collect();
    tags.push((1 << 31) + ALWAYS_AT_0);
    tags.sort_unstable();
    tags
}

/// 32 tags that no seed serves though every place is touched: the multiples of 2^27 but one reach all
/// places but 0, and two tags have no other place than 0.
pub fn two_on_place_0() -> Vec<u32> {
    let mut tags: Vec<u32> = (2..=31).map(|k| k << 27).collect();
    tags.extend([ALWAYS_AT_0, 2 * ALWAYS_AT_0]);
    tags.sort_unstable();
    tags
}

/// Five tags that no seed serves, since place 2 is never reached: multipliers are odd, so an odd
/// multiple of 2^29 stays one, and has the place 0, 1, 3 or 4; two times 2^29 has the place 1 or 3.
pub const WITHOUT_PLACE_2: [u32; 5] = [1 << 29, 2 << 29, 3 << 29, 5 << 29, 7 << 29];

/// Six tags that no seed serves though every place is touched: the four odd multiples of 2^29 and
/// four times 2^29 have only the places 0, 2, 3 and 5, four places for five tags.
pub const FIVE_ON_FOUR_PLACES: [u32; 6] = [1 << 29, 2 << 29, 3 << 29, 4 << 29, 5 << 29, 7 << 29];

/// A tag's candidate places, that of choice 0 first.
pub type Key = [u32; 2];

/// Ascending tags that have these candidate places under the seed, each the lowest above the one
/// before. Under this seed every pair of places has tags.
pub fn tags_of(keys: &[Key]) -> (u32, Vec<u32>) {
    let n = keys.len() as u32;
    let seed = n / 4;
    let mut tag = 0;
    let tags = keys.iter().map(|&key| {
        tag = (tag + 1..)
            .find(|&tag| [0, 1].map(|choice| place_of(n, seed, choice, tag)) == key)
            .expect("some tag has these places");
        tag
    });
    let tags = tags.collect();
    (seed, tags)
}

/// The first tags of a group, from tag 1 on.
pub fn tags_of_group(group: u32, groups: u32, count: usize) -> Vec<u32> {
    (1..)
        .filter(|&tag| model::hash::group_of(tag, groups) == group)
        .take(count)
        .collect()
}

/// As many tags of each group named, in one list.
pub fn tags_of_groups(parts: &[(u32, usize)], groups: u32) -> Vec<u32> {
    let mut tags: Vec<u32> = parts
        .iter()
        .flat_map(|&(group, count)| tags_of_group(group, groups, count))
        .collect();
    tags.sort_unstable();
    tags
}
