//! What came of the index without tags: groups with a seed and a word or without, listed tags and
//! strangers.

use std::collections::hash_map::DefaultHasher;
use std::collections::{BTreeMap, BTreeSet, HashSet};
use std::hash::{Hash, Hasher};

use model::hash::group_of;
use model::placing::{first_seed, LARGEST_GROUP};
use model::tagless::image::GroupLine;
use model::tagless::tagless_length;
use tag_index::UNKNOWN;

use crate::lists::Case;

/// Groups of more tags than this are not asked what seeds serve them: that takes its time.
const FEW: usize = 12;

/// The groups of images without tags, each counted once, and what lookups in the images found.
#[derive(Default)]
pub struct Words {
    /// A number for each group that was met: its tags, hashed.
    met: HashSet<u64>,
    /// How many groups of each size have a word.
    sizes: BTreeMap<usize, u64>,
    /// Groups with a seed of 1 to 99, and of 100 and more.
    low_seeds: u64,
    high_seeds: u64,
    greatest_seed: u32,
    /// Words other than 0, those with bit 31, and the bits that were 1 in some word.
    not_0: u64,
    highest_bit: u64,
    ones: u32,
    /// Groups whose tags are all multiples of 2, of 2^8 and of 2^16.
    multiples: [u64; 3],
    /// Of the groups of few tags: those with a lower seed that serves, passed over since it has no word,
    /// and those refused with 7 though some seed serves.
    passed_over: u64,
    served_without_a_word: u64,
    /// Images in which the listed tags have the numbers 0 to N - 1, each once.
    numbered: u64,
    /// Tags that are not listed: with a number below N, and unknown, in an empty group.
    strangers: u64,
    unknown: u64,
}

impl Words {
    /// Counts the groups of a list whose image without tags is this, or that was refused with 7 as the
    /// only group.
    pub fn add(&mut self, case: &Case, answer: u64, image: &[u8]) {
        if answer >> 32 == 7 && case.groups == 1 {
            if self.is_new(&case.tags) && case.tags.len() <= FEW {
                let served = first_seed(&case.tags, case.limit).is_some();
                self.served_without_a_word += u64::from(served);
            }
            return;
        }
        if answer >> 32 != 0 {
            return;
        }
        let mut parts = vec![Vec::new(); case.groups as usize];
        for &tag in &case.tags {
            parts[group_of(tag, case.groups) as usize].push(tag);
        }
        for (group, part) in parts.iter().enumerate() {
            let bytes = &image[tagless_length(group)..tagless_length(group + 1)];
            let line = GroupLine::read(bytes).expect("both sides wrote it");
            if self.is_new(part) {
                self.add_group(part, line);
            }
        }
    }

    fn is_new(&mut self, tags: &[u32]) -> bool {
        let mut hasher = DefaultHasher::new();
        tags.hash(&mut hasher);
        self.met.insert(hasher.finish())
    }

    fn add_group(&mut self, tags: &[u32], line: GroupLine) {
        let GroupLine { seed, word, .. } = line;
        *self.sizes.entry(tags.len()).or_insert(0) += 1;
        self.low_seeds += u64::from((1..100).contains(&seed));
        self.high_seeds += u64::from(seed >= 100);
        self.greatest_seed = self.greatest_seed.max(seed);
        self.not_0 += u64::from(word != 0);
        self.highest_bit += u64::from(word >> 31);
        self.ones |= word;
        let zeros = tags.iter().map(|tag| tag.trailing_zeros()).min();
        for (count, least) in self.multiples.iter_mut().zip([1, 8, 16]) {
            *count += u64::from(zeros.is_some_and(|zeros| zeros >= least));
        }
        if tags.len() <= FEW && seed > 0 {
            self.passed_over += u64::from(first_seed(tags, seed).is_some());
        }
    }

    /// Counts listed tags and strangers of an image that was built, and says what is wrong with their
    /// numbers.
    pub fn numbered(&mut self, case: &Case, found: &[(u32, u64)]) -> Result<(), String> {
        let count = case.tags.len() as u64;
        let occupied: BTreeSet<u32> = case
            .tags
            .iter()
            .map(|&tag| group_of(tag, case.groups))
            .collect();
        let mut taken = BTreeSet::new();
        for &(tag, number) in found {
            let listed = case.tags.binary_search(&tag).is_ok();
            let empty = !occupied.contains(&group_of(tag, case.groups));
            match number {
                UNKNOWN if tag == 0 => (),
                UNKNOWN if empty => self.unknown += 1,
                number if number >= count || empty || tag == 0 => {
                    return Err(format!("tag {tag} has number {number} of {count}"));
                }
                number if listed && !taken.insert(number) => {
                    return Err(format!("tag {tag} has number {number}, as another one"));
                }
                _ => self.strangers += u64::from(!listed),
            }
        }
        if taken.len() as u64 != count {
            let numbers = taken.len();
            return Err(format!("the {count} listed tags have {numbers} numbers"));
        }
        self.numbered += 1;
        Ok(())
    }

    /// Prints the counts, and says whether there were enough: of groups, of every size, of every bit of
    /// the word, of multiples, of seeds passed over, of strangers; and whether the last seed came.
    pub fn report(&self, least: usize) -> bool {
        let Words {
            low_seeds,
            high_seeds,
            greatest_seed,
            not_0,
            highest_bit,
            multiples: [even, of_2_8, of_2_16],
            passed_over,
            served_without_a_word,
            numbered,
            strangers,
            unknown,
            ..
        } = self;
        let (groups, sizes) = (self.met.len(), self.sizes.len());
        let of_size = |size: usize| self.sizes.get(&size).copied().unwrap_or(0);
        println!("            of the index without tags: {groups} different groups, of {sizes} sizes, {} of 31 tags and {} of 32", of_size(31), of_size(32));
        println!("            of their seeds: {low_seeds} are 1 to 99, {high_seeds} greater, the greatest {greatest_seed}");
        println!("            of their words: {not_0} are not 0, {highest_bit} have bit 31");
        println!(
            "            of multiples: {even} groups of 2, {of_2_8} of 256, {of_2_16} of 65536"
        );
        println!("            of few tags: {passed_over} groups with a seed that serves and has no word, {served_without_a_word} refused though a seed serves");
        println!("            of their images: {numbered} number the listed tags from 0 on without gaps; {strangers} strangers below N, {unknown} in empty groups");
        if groups < least {
            println!("compare: fewer than {least} groups of the index without tags");
        }
        groups >= least
            && sizes == LARGEST_GROUP + 1
            && *low_seeds > 0
            && *high_seeds > 0
            && *greatest_seed == 65_535
            && *highest_bit > 0
            && self.ones == u32::MAX
            && self.multiples.iter().all(|&count| count > 0)
            && *passed_over > 0
            && *served_without_a_word > 0
            && *numbered > 0
            && *strangers > 0
            && *unknown > 0
    }
}
