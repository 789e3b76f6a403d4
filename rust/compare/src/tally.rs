//! One case on both sides: calls the library and the model, compares, and counts.

pub mod choices;
mod parts;
pub mod strict;
mod words;

use std::collections::{BTreeMap, BTreeSet};
use std::process;

use model::boundary::Cells;
use model::placing::LARGEST_GROUP;
use tag_index::{raw, Index, Plan, Reason, Refusal, TaglessIndex, UNKNOWN};

use crate::lists::Case;
use choices::Choices;
use parts::Counted;
use strict::{Strict, BEFORE_19};
use words::Words;

/// Bytes behind the buffer that building or writing is lent, which must stay as they are.
const GUARD: usize = 32;

/// Cells before and behind the plan that planning is lent, which must stay as they are.
const GUARD_CELLS: usize = 4;

/// The eleven calls over the C boundary, and the printer's run.
#[derive(Clone, Copy, PartialEq, Eq, PartialOrd, Ord)]
pub enum Operation {
    Placing,
    CountingParts,
    Planning,
    Writing,
    Building,
    Checking,
    StrictChecking,
    Lookup,
    TaglessBuilding,
    TaglessChecking,
    TaglessLookup,
    Printing,
}

impl Operation {
    pub const ALL: [Operation; 12] = [
        Operation::Placing,
        Operation::CountingParts,
        Operation::Planning,
        Operation::Writing,
        Operation::Building,
        Operation::Checking,
        Operation::StrictChecking,
        Operation::Lookup,
        Operation::TaglessBuilding,
        Operation::TaglessChecking,
        Operation::TaglessLookup,
        Operation::Printing,
    ];

    fn name(self) -> &'static str {
        match self {
            Operation::Placing => "placing",
            Operation::CountingParts => "counting parts",
            Operation::Planning => "planning",
            Operation::Writing => "writing",
            Operation::Building => "building",
            Operation::Checking => "checking",
            Operation::StrictChecking => "strict check",
            Operation::Lookup => "lookup",
            Operation::TaglessBuilding => "building without tags",
            Operation::TaglessChecking => "checking without tags",
            Operation::TaglessLookup => "lookup without tags",
            Operation::Printing => "printing",
        }
    }

    /// The refusals that must have come, and no others can.
    fn refusals(self) -> &'static [usize] {
        match self {
            Operation::Placing => &[4, 5, 6, 7, 17],
            Operation::CountingParts => &[2, 5, 6, 17],
            Operation::Planning => &[4, 5, 6, 7, 8, 10, 16, 17],
            Operation::Writing => &[2, 5, 6, 8, 9, 10, 16, 17, 18],
            Operation::Building | Operation::TaglessBuilding => &[4, 5, 6, 7, 8, 9, 10, 16, 17],
            Operation::Checking => &[11, 12, 13, 14, 15, 17],
            Operation::StrictChecking => &[11, 12, 13, 14, 15, 17, 19],
            Operation::Lookup | Operation::TaglessChecking | Operation::TaglessLookup => {
                &[11, 12, 13]
            }
            // The printer's buffer holds every image.
            Operation::Printing => &[4, 5, 6, 7, 8, 10, 16, 17],
        }
    }

    /// The refusals of an operation that takes a text, in the order written. The first two are reading's:
    /// a list of more than 4,096 tags is refused there already. And those of counting parts.
    pub fn order(self) -> &'static [u32] {
        match self {
            Operation::CountingParts => &[2, 5, 6, 17],
            Operation::Planning => &[16, 5, 8, 4, 6, 17, 10, 7],
            Operation::Writing => &[16, 5, 8, 2, 6, 17, 9, 10, 18],
            Operation::Building => &[16, 5, 8, 4, 6, 17, 10, 7, 9],
            Operation::TaglessBuilding => &[16, 5, 8, 4, 6, 17, 9, 10, 7],
            _ => &[],
        }
    }

    /// Whether the refusal names a place. 17 names a slot in both checks; otherwise it is the first tag
    /// that is 0. Placing has one group, so its 7 names none, and counting parts one seed, so its 2 names
    /// none.
    fn names_place(self, number: usize) -> bool {
        let reason = Reason::from_number(number as u32);
        reason.and_then(Reason::place_kind).is_some()
            && (number != 17 || matches!(self, Operation::Checking | Operation::StrictChecking))
            && (number != 7 || self != Operation::Placing)
            && (number != 2 || self != Operation::CountingParts)
    }

    /// What an answer is called that is neither unknown nor a refusal.
    fn success(self) -> &'static str {
        match self {
            Operation::Placing => "seed",
            Operation::CountingParts => "parts",
            Operation::Planning => "plan",
            Operation::Writing => "length",
            Operation::Building | Operation::TaglessBuilding => "length",
            Operation::Checking | Operation::StrictChecking | Operation::TaglessChecking => {
                "accepted"
            }
            Operation::Lookup | Operation::TaglessLookup => "number",
            Operation::Printing => "image",
        }
    }

    /// Whether unknown is one of its answers.
    fn has_unknown(self) -> bool {
        matches!(self, Operation::Lookup | Operation::TaglessLookup)
    }
}

/// How often an operation gave each refusal, by its number, and at which places; unknown; and
/// anything else.
#[derive(Default)]
struct Answers {
    refused: [u64; 20],
    places: [BTreeSet<u32>; 20],
    unknown: u64,
    success: u64,
}

impl Answers {
    fn all(&self) -> u64 {
        self.refused.iter().sum::<u64>() + self.unknown + self.success
    }
}

/// The groups that placing answered with a seed.
#[derive(Default)]
struct Placed {
    sizes: BTreeSet<usize>,
    /// The groups of 25 to 32 tags, each once, and of these the ones of 32.
    large: BTreeSet<Vec<u32>>,
    full: u64,
    /// Words of groups of 32 tags: those with bit 31, and those with ones and zeros in every byte.
    highest_bit: u64,
    mixed: u64,
    /// The bits that were 1 in one of these words, and those that were 0.
    ones: u32,
    zeros: u32,
    greatest_seed: u64,
    /// Answers for a group made for a seed that are that seed.
    as_made: u64,
}

impl Placed {
    fn add(&mut self, tags: &[u32], seed: u64, word: u32) {
        self.sizes.insert(tags.len());
        self.greatest_seed = self.greatest_seed.max(seed);
        if tags.len() <= 24 || !self.large.insert(tags.to_vec()) {
            return;
        }
        if tags.len() == LARGEST_GROUP {
            let bytes = word.to_le_bytes();
            self.full += 1;
            self.highest_bit += u64::from(word >> 31);
            self.mixed += u64::from(bytes.iter().all(|&byte| byte != 0 && byte != 255));
            self.ones |= word;
            self.zeros |= !word;
        }
    }

    /// Prints the counts, and says whether there were enough: of every size, of more than 24 tags, of
    /// every bit of the word; and whether the last seed came.
    fn report(&self, least_large: usize) -> bool {
        let Placed {
            full,
            highest_bit,
            mixed,
            greatest_seed,
            as_made,
            ..
        } = self;
        let large = self.large.len();
        println!("            of placing: {large} groups of 25 to 32 tags have a seed, {full} of them 32 tags; the greatest seed is {greatest_seed}");
        println!("            of the words of 32 tags: {highest_bit} with bit 31, {mixed} with ones and zeros in every byte");
        println!("            of the groups made for a seed: {as_made} answers with it");
        if large < least_large {
            println!("compare: fewer than {least_large} groups of 25 to 32 tags");
        }
        large >= least_large
            && self.sizes.len() == LARGEST_GROUP + 1
            && *highest_bit > 0
            && *mixed > 0
            && (self.ones, self.zeros) == (u32::MAX, u32::MAX)
            && *greatest_seed == 65_535
            && *as_made > 0
    }
}

/// The binding's `Index` or `TaglessIndex`: images taken, images refused, lookups that answered a number
/// or unknown. They go through the same C functions, so they do not count as answers of these.
#[derive(Default)]
struct Indexes {
    taken: u64,
    refused: u64,
    lookups: u64,
}

/// What came of plans.
#[derive(Default)]
struct Plans {
    /// Refused plannings that were lent cells which were not all 0, and are afterwards.
    cleared: u64,
    /// Lists that were planned, written and built.
    in_turn: u64,
    /// Images with a seed other than 0 for an empty group, and images whose plan has a number above
    /// 65,535 behind the last group.
    empty_group: u64,
    high_behind: u64,
}

/// Lookups of tag 0: unknown, of these the ones in images that checking refuses, and refused.
#[derive(Default)]
struct Unwired {
    unknown: u64,
    unknown_at_fault: u64,
    refused: u64,
}

impl Unwired {
    /// Counts one lookup; `checked` is what checking answers for the image.
    fn add(&mut self, answer: u64, checked: u64) {
        match answer {
            UNKNOWN => self.unknown += 1,
            _ => self.refused += 1,
        }
        self.unknown_at_fault += u64::from(answer == UNKNOWN && checked != 0);
    }

    /// Prints the counts, and says whether each came.
    fn report(&self, of: &str) -> bool {
        let Unwired {
            unknown,
            unknown_at_fault,
            refused,
        } = self;
        println!("            of tag 0{of}, lookups: {unknown} unknown, {unknown_at_fault} of them in images at fault, {refused} refused");
        *unknown_at_fault > 0 && *refused > 0
    }
}

impl Indexes {
    /// Prints the counts, and says whether each came.
    fn report(&self, name: &str) -> bool {
        let Indexes {
            taken,
            refused,
            lookups,
        } = self;
        println!("            of the binding's {name}: {taken} images taken, {refused} refused, {lookups} lookups");
        *taken > 0 && *refused > 0 && *lookups > 0
    }
}

/// Fewer than these are a fault of the run.
pub struct Least {
    /// Answers.
    pub answers: u64,
    /// Groups of 25 to 32 tags that placing found a seed for.
    pub large: usize,
    /// Groups of the index without tags.
    pub words: usize,
    /// Groups made or drawn for the order of choices, besides those of up to five tags.
    pub choices: u64,
    /// Images edited for the strict check.
    pub edited: u64,
    /// Groups made or drawn for counting parts.
    pub parts: u64,
}

pub struct Tally {
    kind: &'static str,
    kinds: BTreeMap<(Operation, &'static str), u64>,
    answers: [Answers; 12],
    placed: Placed,
    plans: Plans,
    /// What decided in the groups that were placed, and in those of images written under a plan.
    choices: Choices,
    written: Choices,
    /// Sizes of which a group was placed for every sequence of pairs of places: how many there are, and
    /// how many some seed serves.
    every_group: BTreeMap<usize, (u64, u64)>,
    /// Groups made or drawn for the order of choices.
    chosen: u64,
    /// Images edited for the strict check.
    strict: Strict,
    /// Groups whose parts were counted.
    parts: Counted,
    /// Cases with several refusals due at once, by the first two of them in the order written.
    pairs: BTreeMap<(Operation, u32, u32), u64>,
    unwired: Unwired,
    indexes: Indexes,
    /// The same of the index without tags, and its groups.
    tagless_unwired: Unwired,
    tagless_indexes: Indexes,
    words: Words,
    /// Lends each call memory of just the right size, so that a memory checker sees a byte too far.
    exact: bool,
}

impl Tally {
    pub fn new(exact: bool) -> Tally {
        Tally {
            kind: "",
            kinds: BTreeMap::new(),
            answers: Default::default(),
            placed: Placed::default(),
            plans: Plans::default(),
            choices: Choices::default(),
            written: Choices::default(),
            every_group: BTreeMap::new(),
            chosen: 0,
            strict: Strict::default(),
            parts: Counted::default(),
            pairs: BTreeMap::new(),
            unwired: Unwired::default(),
            indexes: Indexes::default(),
            tagless_unwired: Unwired::default(),
            tagless_indexes: Indexes::default(),
            words: Words::default(),
            exact,
        }
    }

    /// Names the kind of the cases that follow.
    pub fn kind(&mut self, kind: &'static str) {
        self.kind = kind;
    }

    pub fn compared(&self) -> u64 {
        self.answers.iter().map(Answers::all).sum()
    }

    /// Places a group, lending a cell that holds `cell`, and answers what both sides answered and what
    /// they left in the cell.
    pub fn place(&mut self, tags: &[u32], limit: u32, cell: u32) -> (u64, u32) {
        let mut theirs = [cell];
        let expected = model::answer_place(tags, limit, &mut theirs);
        // The cells before and behind the one lent must stay.
        let mut ours = [[!cell], [cell], [!cell]];
        let answer = if self.exact {
            let mut lent = Box::new([cell]);
            let answer = raw::place_group(&Box::<[u32]>::from(tags), limit, &mut lent);
            ours[1] = *lent;
            answer
        } else {
            raw::place_group(tags, limit, &mut ours[1])
        };
        if answer != expected || ours != [[!cell], theirs, [!cell]] {
            let (kind, answer, expected) = (self.kind, said(answer), said(expected));
            let before = [[!cell], [cell], [!cell]];
            differs(&format!(
                "placing ({kind}): the library answers {answer}, the model {expected}\n\
                 the cell and its neighbours were {before:?} and are {ours:?}, the model leaves \
                 {theirs:?} in it\ntags {tags:?}, L = {limit}"
            ));
        }
        self.count(Operation::Placing, answer);
        if answer >> 32 == 0 {
            self.placed.add(tags, answer, theirs[0]);
            self.choices.add(tags, answer as u32, theirs[0]);
        }
        (answer, theirs[0])
    }

    /// Counts the parts of a group under a seed on both sides and through the binding, and answers what all
    /// answered.
    pub fn count_parts(&mut self, tags: &[u32], seed: u32) -> u64 {
        let answer = if self.exact {
            raw::count_parts(&Box::<[u32]>::from(tags), seed)
        } else {
            raw::count_parts(tags, seed)
        };
        let expected = model::answer_parts(tags, seed);
        if answer != expected {
            let (answer, expected) = (said(answer), said(expected));
            self.parts_differ(
                tags,
                seed,
                &format!("the library answers {answer}, the model {expected}"),
            );
        }
        let taken = tag_index::count_parts(tags, seed).map_or_else(answer_of, |parts| {
            2 * u64::from(parts.number) + u64::from(parts.serves)
        });
        if taken != answer {
            let fault = format!("both sides answer {}, the binding {taken}", said(answer));
            self.parts_differ(tags, seed, &fault);
        }
        self.count(Operation::CountingParts, answer);
        if answer >> 32 == 0 {
            if let Err(fault) = self.parts.add(tags, seed, answer) {
                let fault = format!("both sides answer {answer}, and {fault}");
                self.parts_differ(tags, seed, &fault);
            }
        }
        answer
    }

    /// Counts the parts of a group that was made or drawn for it.
    pub fn parts_of_made(&mut self, tags: &[u32], seed: u32) -> u64 {
        let answer = self.count_parts(tags, seed);
        self.parts.made += u64::from(answer >> 32 == 0);
        answer
    }

    /// Places a group, and says by counting parts that the seed found serves and that no lower one does;
    /// none below the limit if placing refuses with 7.
    pub fn parts_beside_placing(&mut self, tags: &[u32], limit: u32) {
        let (answer, _) = self.place(tags, limit, 0);
        let (passed_over, found) = match answer >> 32 {
            0 => (answer as u32, Some(answer as u32)),
            7 => (limit, None),
            _ => return,
        };
        for seed in (0..passed_over).chain(found) {
            let serves = self.count_parts(tags, seed) % 2 == 1;
            if serves != (Some(seed) == found) {
                let fault = format!(
                    "both sides say {serves}, and placing answers {}",
                    said(answer)
                );
                self.parts_differ(tags, seed, &fault);
            }
        }
        self.parts.placed(passed_over);
    }

    fn parts_differ(&self, tags: &[u32], seed: u32, fault: &str) -> ! {
        let kind = self.kind;
        differs(&format!(
            "counting parts ({kind}): {fault}\ntags {tags:?}, seed {seed}"
        ))
    }

    /// What decided in the groups placed so far.
    pub fn choices(&self) -> &Choices {
        &self.choices
    }

    /// Counts the groups of a size that were placed for every sequence of pairs of places, and of these
    /// the ones that some seed serves.
    pub fn every_group(&mut self, n: usize, groups: u64, served: u64) {
        self.every_group.insert(n, (groups, served));
    }

    /// Counts groups made or drawn for the order of choices.
    pub fn chosen(&mut self, groups: u64) {
        self.chosen += groups;
    }

    /// Counts a group that was made for a seed, if placing answered that seed.
    pub fn made_for(&mut self, answer: u64, seed: u32) {
        self.placed.as_made += u64::from(answer == u64::from(seed));
    }

    /// Builds from a text into a buffer of `room` bytes, and answers what both sides answered.
    pub fn build(&mut self, text: &[u8], room: usize) -> u64 {
        let (answer, _) = self.fill(
            Operation::Building,
            text,
            room,
            String::new,
            raw::build,
            model::answer_build,
        );
        answer
    }

    /// Builds an image without tags from a text into a buffer of `room` bytes, and answers what both
    /// sides answered and the image, if there is one.
    pub fn tagless_build(&mut self, text: &[u8], room: usize) -> (u64, Vec<u8>) {
        let (answer, buffer) = self.fill(
            Operation::TaglessBuilding,
            text,
            room,
            String::new,
            raw::tagless_build,
            model::answer_tagless_build,
        );
        let length = match answer >> 32 {
            0 => answer as usize,
            _ => 0,
        };
        (answer, buffer[..length].to_vec())
    }

    /// Counts the groups of a list whose image without tags is this, or that was refused with 7 as its
    /// only group.
    pub fn words(&mut self, case: &Case, answer: u64, image: &[u8]) {
        self.words.add(case, answer, image);
    }

    /// Writes the tags of a text with a plan into a buffer of `room` bytes, checks some of the images
    /// strictly, and answers what both sides answered to writing.
    pub fn write(&mut self, text: &[u8], plan: &Cells, room: usize) -> u64 {
        let lent = Box::new(*plan);
        let (answer, buffer) = self.fill(
            Operation::Writing,
            text,
            room,
            || planned(plan),
            |text, image| raw::write(text, &lent, image),
            |text, image| model::answer_write(text, plan, image),
        );
        if *lent != *plan {
            let kind = self.kind;
            differs(&format!(
                "writing ({kind}): it changed the plan\n{}",
                shown(text)
            ));
        }
        if answer >> 32 == 0 {
            let groups = plan[0] as usize;
            self.plans.high_behind +=
                u64::from(plan[1 + groups..].iter().any(|&seed| seed > 65_535));
            let tags = model::read_list(text, usize::MAX).map_or(Vec::new(), |list| list.tags);
            let members = model::planning::members(&tags, plan[0]).expect("both sides wrote it");
            let seeds = &plan[1..=groups];
            self.plans.empty_group += u64::from(
                (members.iter().zip(seeds)).any(|(part, &seed)| part.is_empty() && seed != 0),
            );
            for (part, &seed) in members.iter().zip(seeds) {
                let word = model::placing::word_taken(part, seed).expect("both sides wrote it");
                self.written.add(part, seed, word);
            }
            // Under a plan of other seeds the image may be one that building does not write. One in eight
            // is enough: images of one list come several times.
            let written = self.answers[Operation::Writing as usize].success;
            if written.is_multiple_of(8) {
                self.strict_check(&buffer[..answer as usize]);
            }
        }
        answer
    }

    /// Calls both sides with a buffer of `room` bytes, and compares the answers and every byte; the answer
    /// and the buffer.
    fn fill(
        &mut self,
        operation: Operation,
        text: &[u8],
        room: usize,
        with: impl Fn() -> String,
        library: impl Fn(&[u8], &mut [u8]) -> u64,
        model: impl Fn(&[u8], &mut [u8]) -> u64,
    ) -> (u64, Box<[u8]>) {
        let guard = if self.exact { 0 } else { GUARD };
        let mut ours = patterned(room + guard);
        let mut theirs = ours.clone();
        let answer = if self.exact {
            library(&Box::<[u8]>::from(text), &mut ours[..room])
        } else {
            library(text, &mut ours[..room])
        };
        let expected = model(text, &mut theirs[..room]);
        if answer != expected || ours != theirs {
            let bytes = match (0..ours.len()).find(|&at| ours[at] != theirs[at]) {
                Some(at) => format!(
                    "; the buffer differs first at byte {at}: {} instead of {}",
                    ours[at], theirs[at]
                ),
                None => "; the buffer is the same".to_string(),
            };
            let case = format!("{}{} into {room} bytes", operation.name(), with());
            self.differs(&case, text, answer, expected, &bytes);
        }
        self.count(operation, answer);
        (answer, ours)
    }

    /// Plans from a text, lending cells that hold `before`, and answers what both sides answered and
    /// the plan that both left.
    pub fn plan(&mut self, text: &[u8], before: &Cells) -> (u64, Cells) {
        let mut theirs = *before;
        let expected = model::answer_plan(text, &mut theirs);
        let mut ours = *before;
        let mut kept = true;
        let answer = if self.exact {
            let mut lent = Box::new(*before);
            let answer = raw::plan(&Box::<[u8]>::from(text), &mut lent);
            ours = *lent;
            answer
        } else {
            // The cells before and behind the plan must stay.
            let guard = [!before[0]; GUARD_CELLS];
            let mut cells = [&guard[..], before, &guard].concat();
            let lent = &mut cells[GUARD_CELLS..GUARD_CELLS + ours.len()];
            let answer = raw::plan(text, lent.try_into().expect("it is as long as a plan"));
            ours.copy_from_slice(lent);
            kept = cells.starts_with(&guard) && cells.ends_with(&guard);
            answer
        };
        if answer != expected || ours != theirs || !kept {
            let cells = match (0..ours.len()).find(|&at| ours[at] != theirs[at]) {
                Some(at) => format!(
                    "; the plan differs first in cell {at}: {} instead of {}",
                    ours[at], theirs[at]
                ),
                None if kept => "; the plan is the same".to_string(),
                None => "; a cell beside the plan has changed".to_string(),
            };
            self.differs("planning", text, answer, expected, &cells);
        }
        self.count(Operation::Planning, answer);
        self.plans.cleared += u64::from(answer >> 32 != 0 && before.iter().any(|&cell| cell != 0));
        (answer, ours)
    }

    /// Plans, writes with the plan as it was yielded, and builds, all in the library: building answers
    /// what planning refuses and otherwise what writing answers, and leaves the same bytes. Then the
    /// same through the binding, with the plan stored and taken back before writing.
    pub fn in_turn(&mut self, text: &[u8], room: usize) {
        let mut built = patterned(room);
        let expected = raw::build(text, &mut built);

        let mut cells = [!0; 513];
        let mut written = patterned(room);
        let mut answer = raw::plan(text, &mut cells);
        if answer >> 32 == 0 {
            answer = raw::write(text, &cells, &mut written);
        }
        self.same_as_built(text, (expected, &built), (answer, &written));

        let mut written = patterned(room);
        let answer = tag_index::plan(text)
            .map(|plan| Plan::from_le_bytes(&plan.to_le_bytes()))
            .and_then(|plan| tag_index::write(text, &plan, &mut written))
            .map_or_else(answer_of, |length| length as u64);
        self.same_as_built(text, (expected, &built), (answer, &written));
        self.plans.in_turn += 1;
    }

    /// Compares what the two calls answered and left with what building did.
    fn same_as_built(&self, text: &[u8], built: (u64, &[u8]), written: (u64, &[u8])) {
        if built != written {
            let (kind, input) = (self.kind, shown(text));
            let [built, answer] = [built.0, written.0].map(said);
            differs(&format!(
                "planning and writing in turn ({kind}): the library answers {answer}, and in building \
                 {built}\n{input}"
            ));
        }
    }

    /// Counts a case in which several refusals were due at once, the first two of them in the order
    /// written, and says that the first was answered.
    pub fn due(&mut self, operation: Operation, due: &[u32], answer: u64) {
        let number = (answer >> 32) as u32;
        if due.first().copied().unwrap_or(0) != number {
            let (name, kind) = (operation.name(), self.kind);
            differs(&format!(
                "{name} ({kind}): both sides answer {}, and due are {due:?}",
                said(answer)
            ));
        }
        if let [first, second, ..] = *due {
            *self.pairs.entry((operation, first, second)).or_insert(0) += 1;
        }
    }

    /// Checks an image on both sides, and answers what both answered.
    pub fn check(&mut self, image: &[u8]) -> u64 {
        self.read(
            Operation::Checking,
            "",
            image,
            raw::check,
            model::answer_check,
        )
    }

    /// Checks an image strictly on both sides and through the binding, and answers what all answered.
    pub fn strict_check(&mut self, image: &[u8]) -> u64 {
        let answer = self.read(
            Operation::StrictChecking,
            "",
            image,
            raw::strict_check,
            model::answer_strict_check,
        );
        let taken = tag_index::strict_check(image).map_or_else(answer_of, |()| 0);
        if taken != answer {
            self.differs("strict check by the binding", image, taken, answer, "");
        }
        answer
    }

    /// Checks an edited image strictly, and says by calls of the library alone that what is accepted is
    /// what building writes, and nothing else.
    pub fn edited(&mut self, image: &[u8]) -> u64 {
        let answer = self.strict_check(image);
        if let Err(fault) = self.strict.add(image, answer) {
            let (kind, said) = (self.kind, said(answer));
            differs(&format!(
                "strict check ({kind}): both sides answer {said}, and {fault}\n{}",
                shown(image)
            ));
        }
        answer
    }

    /// Looks up a tag in an image on both sides, and answers what both answered.
    pub fn lookup(&mut self, image: &[u8], tag: u32) -> u64 {
        let answer = self.read(
            Operation::Lookup,
            &format!(" of {tag}"),
            image,
            |image| raw::lookup(image, tag),
            |image| model::answer_lookup(image, tag),
        );
        if tag == 0 {
            self.unwired.add(answer, model::answer_check(image));
        }
        answer
    }

    /// Checks an image without tags on both sides, and answers what both answered.
    pub fn tagless_check(&mut self, image: &[u8]) -> u64 {
        self.read(
            Operation::TaglessChecking,
            "",
            image,
            raw::tagless_check,
            model::answer_tagless_check,
        )
    }

    /// Looks up a tag in an image without tags on both sides, and answers what both answered.
    pub fn tagless_lookup(&mut self, image: &[u8], tag: u32) -> u64 {
        let answer = self.read(
            Operation::TaglessLookup,
            &format!(" of {tag}"),
            image,
            |image| raw::tagless_lookup(image, tag),
            |image| model::answer_tagless_lookup(image, tag),
        );
        if tag == 0 {
            let checked = model::answer_tagless_check(image);
            self.tagless_unwired.add(answer, checked);
        }
        answer
    }

    /// Calls both sides with an image, and compares the answers.
    fn read(
        &mut self,
        operation: Operation,
        of: &str,
        image: &[u8],
        library: impl Fn(&[u8]) -> u64,
        model: impl Fn(&[u8]) -> u64,
    ) -> u64 {
        let answer = if self.exact {
            library(&Box::<[u8]>::from(image))
        } else {
            library(image)
        };
        let expected = model(image);
        if answer != expected {
            let case = format!("{}{of}", operation.name());
            self.differs(&case, image, answer, expected, "");
        }
        self.count(operation, answer);
        answer
    }

    /// Takes an image as a `TaglessIndex`: it is one where checking without tags accepted, its lookups
    /// answer what lookup did, and every number is below N. `checked` and `found` are what both sides
    /// answered.
    pub fn tagless_index(&mut self, image: &[u8], checked: u64, found: &[(u32, u64)]) {
        let taken = if self.exact {
            TaglessIndex::new(Box::<[u8]>::from(image).into_vec())
        } else {
            TaglessIndex::new(image)
        };
        let index = match taken {
            Ok(index) => index,
            Err(refusal) => {
                let answer = answer_of(refusal);
                if answer != checked {
                    self.differs("taking an index without tags", image, answer, checked, "");
                }
                self.tagless_indexes.refused += 1;
                return;
            }
        };
        if checked != 0 {
            self.differs("taking an index without tags", image, 0, checked, "");
        }
        let stated = model::line::read_two(&image[..11]);
        if stated != Some((index.len() as u32, index.groups())) || index.as_bytes() != image {
            let kind = self.kind;
            differs(&format!(
                "an index without tags ({kind}) has another N, B or image than it was given\n{}",
                shown(image)
            ));
        }
        for &(tag, expected) in found {
            let answer = index.lookup(tag).map_or(UNKNOWN, u64::from);
            if answer != expected || (answer != UNKNOWN && answer >= index.len() as u64) {
                let case = format!("lookup of {tag} in an index without tags");
                self.differs(&case, image, answer, expected, "");
            }
        }
        self.tagless_indexes.taken += 1;
        self.tagless_indexes.lookups += found.len() as u64;
    }

    /// Says that the listed tags have the numbers 0 to N - 1 in an image without tags, each once, and
    /// counts strangers: tags that are not listed have a number below N, or none in an empty group.
    pub fn numbered(&mut self, case: &Case, image: &[u8], found: &[(u32, u64)]) {
        let kind = self.kind;
        if let Err(fault) = self.words.numbered(case, found) {
            differs(&format!(
                "lookup without tags ({kind}): both sides agree, and {fault}\n{}",
                shown(image)
            ));
        }
    }

    /// Takes an image as an `Index`: it is one where checking accepted, and its lookups answer what
    /// lookup did. `checked` and `found` are what both sides answered.
    pub fn index(&mut self, image: &[u8], checked: u64, found: &[(u32, u64)]) {
        let taken = if self.exact {
            Index::new(Box::<[u8]>::from(image).into_vec())
        } else {
            Index::new(image)
        };
        let index = match taken {
            Ok(index) => index,
            Err(refusal) => {
                let answer = answer_of(refusal);
                if answer != checked {
                    self.differs("taking an index", image, answer, checked, "");
                }
                self.indexes.refused += 1;
                return;
            }
        };
        if checked != 0 {
            self.differs("taking an index", image, 0, checked, "");
        }
        let stated = model::line::read_two(&image[..11]);
        if stated != Some((index.len() as u32, index.groups())) || index.as_bytes() != image {
            let kind = self.kind;
            differs(&format!(
                "an index ({kind}) has another N, B or image than it was given\n{}",
                shown(image)
            ));
        }
        for &(tag, expected) in found {
            let answer = index.lookup(tag).map_or(UNKNOWN, u64::from);
            if answer != expected {
                let case = format!("lookup of {tag} in an index");
                self.differs(&case, image, answer, expected, "");
            }
        }
        self.indexes.taken += 1;
        self.indexes.lookups += found.len() as u64;
    }

    /// Counts a run of the printer that wrote what the model writes.
    pub fn printed(&mut self, output: &[u8]) {
        // One line of two fields is a refusal: every image has at least two lines.
        let refused = model::line::read_two(&output[..11]).filter(|_| output.len() == 11);
        self.count(
            Operation::Printing,
            refused.map_or(0, |(number, place)| {
                (u64::from(number) << 32) + u64::from(place)
            }),
        );
    }

    fn count(&mut self, operation: Operation, answer: u64) {
        *self.kinds.entry((operation, self.kind)).or_insert(0) += 1;
        let answers = &mut self.answers[operation as usize];
        match (operation, answer >> 32) {
            (operation, 0) if operation.has_unknown() && answer == UNKNOWN => answers.unknown += 1,
            (_, 0) => answers.success += 1,
            // Both sides agree, and the model has no other numbers.
            (_, number) => {
                answers.refused[number as usize] += 1;
                answers.places[number as usize].insert(answer as u32);
            }
        }
    }

    /// Prints what decided between sequences of choices, and says whether there was enough: of groups, of
    /// several sequences with the fewest ones, and of others than the lowest tag alone decides for, of 32
    /// tags too, in placing and in writing.
    fn report_choices(&self, least: u64) -> bool {
        for (n, (groups, served)) in &self.every_group {
            println!("            of {n} tags, every sequence of pairs of places: {groups} groups, {served} of them served");
        }
        let chosen = self.chosen;
        println!("            of groups made or drawn for the order of choices: {chosen}");
        if chosen < least {
            println!("compare: fewer than {least} groups for the order of choices");
        }
        chosen >= least
            && !self.every_group.is_empty()
            && self.choices.report("placing") & self.written.report("writing")
    }

    /// Prints the counts of what came of plans, and says whether all came, and every pair of refusals due
    /// at once.
    fn report_plans(&self) -> bool {
        let Plans {
            cleared,
            in_turn,
            empty_group,
            high_behind,
        } = self.plans;
        println!("            of planning: {cleared} refused plans cleared that held something else; {in_turn} lists planned, written and built in turn");
        println!("            of writing: {empty_group} images with a seed other than 0 for an empty group, {high_behind} with a number above 65535 behind the last group");
        let mut complete = cleared > 0 && in_turn > 0 && empty_group > 0 && high_behind > 0;
        for operation in [
            Operation::Planning,
            Operation::Writing,
            Operation::Building,
            Operation::TaglessBuilding,
        ] {
            complete &= self.report_due(operation);
        }
        complete
    }

    /// Prints how often several refusals of an operation were due at once, and says whether every pair of
    /// the first two came.
    fn report_due(&self, operation: Operation) -> bool {
        let order = operation.order();
        let pairs = order.len() * (order.len() - 1) / 2;
        let counts: Vec<u64> = self
            .pairs
            .range((operation, 0, 0)..=(operation, u32::MAX, u32::MAX))
            .map(|(_, &count)| count)
            .collect();
        println!(
            "            of {}, several refusals due at once: {} cases, {} of {pairs} pairs of the first two",
            operation.name(),
            counts.iter().sum::<u64>(),
            counts.len()
        );
        counts.len() == pairs
    }

    /// Prints what came of counting parts, and says whether there was enough, and every pair of refusals
    /// due at once.
    pub fn report_parts(&self, least: u64) -> bool {
        self.parts.report(least) & self.report_due(Operation::CountingParts)
    }

    /// Prints what came of edited images, and says whether there was enough, and each refusal of checking
    /// where 19 was due too.
    pub fn report_strict(&self, least: u64) -> bool {
        let mut complete = self.strict.report(least);
        let operation = Operation::StrictChecking;
        let met = BEFORE_19.map(|number| self.pairs.get(&(operation, number, 19)).copied());
        let counts: Vec<String> = (BEFORE_19.iter().zip(met))
            .map(|(number, count)| format!("{number} in {} cases", count.unwrap_or(0)))
            .collect();
        println!(
            "            of the strict check, where 19 was due too: {}",
            counts.join(", ")
        );
        complete &= met.iter().all(Option::is_some);
        complete
    }

    fn differs(&self, case: &str, input: &[u8], answer: u64, expected: u64, more: &str) -> ! {
        let (kind, answer, expected) = (self.kind, said(answer), said(expected));
        differs(&format!(
            "{case} ({kind}): the library answers {answer}, the model {expected}{more}\n{}",
            shown(input)
        ))
    }

    /// Prints the counts, and says whether everything that must have come has come: every answer,
    /// every refusal that names a place at more than one, and the others at place 0 only; and as many
    /// groups as there must be at least.
    pub fn report(&self, least: &Least) -> bool {
        println!("cases of each kind");
        for ((operation, kind), count) in &self.kinds {
            println!("{count:>10}  {}, {kind}", operation.name());
        }
        println!("answers of each operation");
        let mut complete = true;
        for operation in Operation::ALL {
            let answers = &self.answers[operation as usize];
            if answers.all() == 0 {
                continue;
            }
            let mut line = |count: u64, what: &str, enough: bool| {
                println!("{count:>10}  {}: {what}", operation.name());
                complete &= count > 0 && enough;
            };
            line(answers.success, operation.success(), true);
            if operation.has_unknown() {
                line(answers.unknown, "unknown", true);
            }
            for &number in operation.refusals() {
                let (count, places) = (answers.refused[number], &answers.places[number]);
                if operation.names_place(number) {
                    let what = format!("refusal {number}, at {} places", places.len());
                    line(count, &what, places.len() > 1);
                } else {
                    let what = format!("refusal {number}");
                    line(count, &what, places.iter().all(|&place| place == 0));
                }
            }
        }
        complete &= self.placed.report(least.large) && self.report_plans();
        complete &= self.report_choices(least.choices) & self.report_strict(least.edited);
        complete &= self.report_parts(least.parts);
        complete &= self.unwired.report("") & self.indexes.report("Index");
        complete &= self.words.report(least.words);
        complete &= self.tagless_unwired.report(" without tags");
        complete &= self.tagless_indexes.report("TaglessIndex");
        println!(
            "            refusals 1 and 3 belong to place of one tag, which is not called over the C \
             boundary; --stored has them"
        );
        if !complete {
            println!("compare: some answer, group size, bit or seed never came, or a refusal at one place only or at one that it does not name");
        }
        complete
    }
}

/// What the buffer holds before. No byte of an image is above 127, so whatever is written differs.
fn patterned(room: usize) -> Box<[u8]> {
    (0..room).map(|at| 128 | (37 * at) as u8).collect()
}

/// The beginning of a plan.
fn planned(plan: &Cells) -> String {
    format!(" with the plan B = {}, seeds {:?}..", plan[0], &plan[1..9])
}

/// Ends the run at the first difference.
pub fn differs(what: &str) -> ! {
    println!("compare: difference: {what}");
    process::exit(1)
}

/// The answer that stands for a refusal of the binding.
fn answer_of(refusal: Refusal) -> u64 {
    (u64::from(refusal.reason.number()) << 32) + u64::from(refusal.place)
}

/// An answer in words.
fn said(answer: u64) -> String {
    match answer >> 32 {
        0 => answer.to_string(),
        number => format!("refusal {number} at {}", answer as u32),
    }
}

/// The beginning of an input, and its length.
pub fn shown(input: &[u8]) -> String {
    let beginning = input[..input.len().min(440)].escape_ascii();
    format!("input of {} bytes: \"{beginning}\"", input.len())
}
