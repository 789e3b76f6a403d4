//! Refusals: why an operation stopped, and the line, index, group or slot that it names.

use std::error::Error;
use std::fmt;

use crate::LARGEST_GROUP;

/// Why an operation refuses: what is the matter with its input. Document 01 numbers them 1 to 16 and
/// document 02, §1, §3 and §7, 17 to 19, in this order; more can come, so a `match` needs an arm for
/// the rest.
///
/// Over the C boundary 1 and 3 never come: they belong to "place of one tag".
#[derive(Debug, Clone, Copy, PartialEq, Eq, PartialOrd, Ord, Hash)]
#[non_exhaustive]
#[repr(u8)]
pub enum Reason {
    /// 1: the size of a group is not 1 to 32.
    SizeOutOfRange = 1,
    /// 2: a seed is above 65,535; from writing, the seed of a group in the plan.
    SeedOutOfRange = 2,
    /// 3: a choice is above 1.
    ChoiceOutOfRange = 3,
    /// 4: the seed limit L is not 1 to 65,536.
    LimitOutOfRange = 4,
    /// 5: more tags than 4,096, from placing and from counting parts more than 32, or a text longer than
    /// 65,527 bytes.
    TooManyTags = 5,
    /// 6: a tag is not above the one before it.
    NotAscending = 6,
    /// 7: no seed below L serves a group; from placing, which has one group, at place 0. From building
    /// without tags: no seed below L has a word that gives the group's tags different places.
    NoSeed = 7,
    /// 8: the group count B is not 1 to 512.
    GroupCountOutOfRange = 8,
    /// 9: the buffer is shorter than the image.
    BufferTooShort = 9,
    /// 10: a group has more than 32 tags.
    GroupTooLarge = 10,
    /// 11: the image's length is not the one that its first line says.
    WrongLength = 11,
    /// 12: a line of the image is malformed.
    MalformedLine = 12,
    /// 13: a group's start does not fit its neighbours.
    FaultyGroup = 13,
    /// 14: the tag in a slot does not belong there.
    WrongSlot = 14,
    /// 15: the tag in a slot stands in a lower slot of its group too.
    RepeatedTag = 15,
    /// 16: a line of the list text is malformed, or its length is not a number of lines.
    MalformedList = 16,
    /// 17: a tag is 0, which is reserved for an unwired point.
    UnwiredTag = 17,
    /// 18: no choice sequence fills a group under its seed in the plan.
    SeedDoesNotServe = 18,
    /// 19: a group's seed or slots are not those that building gives its tags.
    NotAsBuilt = 19,
}

/// What a refusal's place counts, from 0. More kinds can come.
#[derive(Debug, Clone, Copy, PartialEq, Eq, Hash)]
#[non_exhaustive]
pub enum PlaceKind {
    /// A line of the list text or of the image.
    Line,
    /// An index in the list of tags.
    Index,
    /// A group; from placing, counting parts and "place of one tag", which have one, always 0.
    Group,
    /// A slot of the image: slot j is line 1 + B + j.
    Slot,
    /// From building, placing and counting parts an index in the list of tags, always 0; from checking a
    /// slot of the image.
    IndexOrSlot,
}

impl Reason {
    /// All reasons, in the order of their numbers.
    pub const ALL: &'static [Reason] = &[
        Reason::SizeOutOfRange,
        Reason::SeedOutOfRange,
        Reason::ChoiceOutOfRange,
        Reason::LimitOutOfRange,
        Reason::TooManyTags,
        Reason::NotAscending,
        Reason::NoSeed,
        Reason::GroupCountOutOfRange,
        Reason::BufferTooShort,
        Reason::GroupTooLarge,
        Reason::WrongLength,
        Reason::MalformedLine,
        Reason::FaultyGroup,
        Reason::WrongSlot,
        Reason::RepeatedTag,
        Reason::MalformedList,
        Reason::UnwiredTag,
        Reason::SeedDoesNotServe,
        Reason::NotAsBuilt,
    ];

    /// The papers' number of this reason, 1 to 19.
    ///
    /// ```
    /// assert_eq!(tag_index::Reason::NoSeed.number(), 7);
    /// ```
    pub const fn number(self) -> u32 {
        self as u32
    }

    /// The reason with this number, if it is 1 to 19.
    ///
    /// ```
    /// use tag_index::Reason;
    /// assert_eq!(Reason::from_number(19), Some(Reason::NotAsBuilt));
    /// assert_eq!(Reason::from_number(20), None);
    /// ```
    pub fn from_number(number: u32) -> Option<Reason> {
        Reason::ALL
            .iter()
            .copied()
            .find(|reason| reason.number() == number)
    }

    /// What the place of such a refusal counts; nothing where no place is named and it is 0.
    ///
    /// ```
    /// use tag_index::{PlaceKind, Reason};
    /// assert_eq!(Reason::NotAscending.place_kind(), Some(PlaceKind::Index));
    /// assert_eq!(Reason::UnwiredTag.place_kind(), Some(PlaceKind::IndexOrSlot));
    /// assert_eq!(Reason::BufferTooShort.place_kind(), None);
    /// ```
    pub const fn place_kind(self) -> Option<PlaceKind> {
        match self {
            Reason::MalformedLine | Reason::MalformedList => Some(PlaceKind::Line),
            Reason::NotAscending => Some(PlaceKind::Index),
            Reason::SeedOutOfRange
            | Reason::NoSeed
            | Reason::GroupTooLarge
            | Reason::FaultyGroup
            | Reason::SeedDoesNotServe
            | Reason::NotAsBuilt => Some(PlaceKind::Group),
            Reason::WrongSlot | Reason::RepeatedTag => Some(PlaceKind::Slot),
            Reason::UnwiredTag => Some(PlaceKind::IndexOrSlot),
            _ => None,
        }
    }
}

/// A refusal: the reason, and the line, index, group or slot that it names, counted from 0.
///
/// ```
/// use tag_index::{Reason, Refusal};
/// let refusal = Refusal { reason: Reason::NotAscending, place: 1 };
/// assert_eq!(
///     refusal.to_string(),
///     "refusal 6: the tag at index 1 is not above the one before it"
/// );
/// let refusal = Refusal { reason: Reason::UnwiredTag, place: 0 };
/// assert_eq!(
///     refusal.to_string(),
///     "refusal 17: the tag at index or slot 0 is 0, which is reserved for an unwired point"
/// );
/// ```
#[derive(Debug, Clone, Copy, PartialEq, Eq, Hash)]
pub struct Refusal {
    /// What is the matter with the input.
    pub reason: Reason,
    /// Where; 0 where the reason names no place.
    pub place: u32,
}

impl fmt::Display for Refusal {
    fn fmt(&self, f: &mut fmt::Formatter<'_>) -> fmt::Result {
        let place = self.place;
        write!(f, "refusal {}: ", self.reason.number())?;
        match self.reason {
            Reason::SizeOutOfRange => {
                write!(f, "the size of the group is not 1 to {LARGEST_GROUP}")
            }
            Reason::SeedOutOfRange => write!(f, "the seed of group {place} is above 65535"),
            Reason::ChoiceOutOfRange => write!(f, "the choice is above 1"),
            Reason::LimitOutOfRange => write!(f, "the seed limit L is not 1 to 65536"),
            Reason::TooManyTags => write!(
                f,
                "a list has more than 4096 tags, a group by itself more than {LARGEST_GROUP}, \
                 or a list text more than 65527 bytes"
            ),
            Reason::NotAscending => {
                write!(f, "the tag at index {place} is not above the one before it")
            }
            Reason::NoSeed => write!(f, "no seed below the limit serves group {place}"),
            Reason::GroupCountOutOfRange => write!(f, "the group count B is not 1 to 512"),
            Reason::BufferTooShort => write!(f, "the buffer is shorter than the image"),
            Reason::GroupTooLarge => write!(f, "group {place} has more than {LARGEST_GROUP} tags"),
            Reason::WrongLength => write!(
                f,
                "the image's length is not the one that its first line says"
            ),
            Reason::MalformedLine => write!(f, "line {place} of the image is malformed"),
            Reason::FaultyGroup => write!(
                f,
                "group {place} does not start where it must, or its end does not fit"
            ),
            Reason::WrongSlot => write!(f, "the tag in slot {place} does not belong there"),
            Reason::RepeatedTag => write!(
                f,
                "the tag in slot {place} stands in a lower slot of its group too"
            ),
            Reason::MalformedList => write!(
                f,
                "line {place} of the list text is malformed, or the text is not whole lines"
            ),
            Reason::UnwiredTag => write!(
                f,
                "the tag at index or slot {place} is 0, which is reserved for an unwired point"
            ),
            Reason::SeedDoesNotServe => {
                write!(
                    f,
                    "no choice sequence fills group {place} under its seed in the plan"
                )
            }
            Reason::NotAsBuilt => write!(
                f,
                "the seed or the slots of group {place} are not those that building gives its tags"
            ),
        }
    }
}

impl Error for Refusal {}
