//! The two-choice tag index for a Rust service: building an image from a list, at once or by a plan and
//! the writing of the image under it, checking it, looking up tags in it, telling whether building made
//! it, placing a group by itself, and testing a seed for a group.
//! And the [index without tags](tagless), for a box that has no store for the tags.
//!
//! The work is done by the proved functions behind the C boundary; this crate lends them slices and
//! takes their answers apart. Every function takes any bytes and any numbers, and its answer depends
//! on nothing but its arguments.
//!
//! ```
//! let text = tag_index::list_text(2, 9, &[1, 2, 3])?;
//! let mut buffer = [0; tag_index::LONGEST_IMAGE];
//! let length = tag_index::build(&text, &mut buffer)?;
//! let image = &buffer[..length];
//! // Checked once, an image is an index whose lookups cannot fail.
//! let index = tag_index::Index::new(image)?;
//! assert_eq!(index.lookup(3), Some(2));
//! assert_eq!(index.lookup(4), None);
//! // An image that nobody checked can be looked up in too, and a fault that is met is refused.
//! assert_eq!(tag_index::lookup(image, 3)?, Some(2));
//! // Whether an image that came from somewhere is as building writes it.
//! tag_index::strict_check(image)?;
//! // Building is two calls in turn: the seeds on one day, and the image under them at another time.
//! let plan = tag_index::plan(&text)?;
//! let mut later = [0; tag_index::LONGEST_IMAGE];
//! let length = tag_index::write(&text, &plan, &mut later)?;
//! assert_eq!(&later[..length], image);
//! // Without the tags the image is shorter, and gives every listed tag a number of its own.
//! let short = tag_index::tagless::image_of(2, 9, &[1, 2, 3])?;
//! assert_eq!(tag_index::TaglessIndex::new(short)?.lookup(3), Some(2));
//! # Ok::<(), Box<dyn std::error::Error>>(())
//! ```
//!
//! # Answers that the papers do not allow
//!
//! These functions panic if the library answers what the papers do not allow, such as a
//! number above 4,095 or a refusal that the operation does not have. The proved library never
//! does; the panic tells of a wrong library, before its answer can do harm.

#![deny(unsafe_code)]
#![warn(missing_docs)]

mod answer;
mod index;
mod list;
mod planning;
pub mod raw;
mod refusal;
pub mod tagless;

use std::error::Error;
use std::fmt;

pub use answer::UNKNOWN;
pub use index::Index;
pub use list::{list_text, TooWide, LARGEST_FIELD};
pub use planning::{image_under, plan, plan_list, write, write_list, Plan, PLAN_BYTES};
pub use raw::PLAN_CELLS;
pub use refusal::{PlaceKind, Reason, Refusal};
pub use tagless::TaglessIndex;

/// The most tags of a list, N.
pub const LARGEST_LIST: usize = 4_096;

/// The most groups, B.
pub const LARGEST_GROUP_COUNT: u32 = 512;

/// The most tags of a group.
pub const LARGEST_GROUP: usize = 32;

/// The greatest seed limit, L.
pub const LARGEST_LIMIT: u32 = 65_536;

/// The most bytes of a list text that is examined; a longer one is refused with 5.
pub const LONGEST_TEXT: usize = 65_527;

/// The bytes of the longest image, 11 × (1 + 512 + 4,096). A buffer of this length is never too
/// short.
pub const LONGEST_IMAGE: usize = 50_699;

/// The length of the image of so many tags in so many groups: 11 × (1 + B + N) bytes.
///
/// At most [`LONGEST_IMAGE`] for every list that building accepts; beyond the range of `usize` it
/// stays at the greatest.
///
/// ```
/// assert_eq!(tag_index::image_length(2, 3), 66);
/// assert_eq!(tag_index::image_length(512, 4_096), tag_index::LONGEST_IMAGE);
/// ```
pub const fn image_length(groups: u32, count: usize) -> usize {
    count
        .saturating_add(groups as usize)
        .saturating_add(1)
        .saturating_mul(11)
}

/// Builds the image of a list text at the beginning of `image` and answers its length: [`plan`], and
/// then [`write()`] with the same text and this plan. A buffer that is too short is thus the last reason
/// to refuse.
///
/// The bytes behind the image stay as they were; a refusal leaves all of them as they were. A list
/// with tag 0 is refused: plant numbering reserves it for an unwired point.
///
/// ```
/// use tag_index::Reason;
/// let text = b"    1    1\n         1\n         3\n";
/// let mut image = [0; 44];
/// // No seed below L = 1 serves the group of 1 and 3.
/// let refusal = tag_index::build(text, &mut image).unwrap_err();
/// assert_eq!((refusal.reason, refusal.place), (Reason::NoSeed, 0));
/// assert_eq!(image, [0; 44]);
///
/// let text = b"    1    2\n         1\n         3\n";
/// assert_eq!(tag_index::build(text, &mut image)?, 44);
///
/// let text = b"    1    2\n         0\n         3\n";
/// let refusal = tag_index::build(text, &mut image).unwrap_err();
/// assert_eq!((refusal.reason, refusal.place), (Reason::UnwiredTag, 0));
/// # Ok::<(), tag_index::Refusal>(())
/// ```
///
/// # Panics
///
/// If the library's answer is not one that the papers allow; the proved library's always is.
pub fn build(text: &[u8], image: &mut [u8]) -> Result<usize, Refusal> {
    answer::built(raw::build(text, image), image.len())
}

/// Why no image or no plan came of a list of numbers. Its [`source`](Error::source) says what is wrong.
///
/// ```
/// use std::error::Error;
/// let error = tag_index::image_of(1, 9, &[5, 5]).unwrap_err();
/// assert_eq!(error.to_string(), "the list was refused");
/// let cause = error.source().unwrap().to_string();
/// assert_eq!(cause, "refusal 6: the tag at index 1 is not above the one before it");
/// ```
#[derive(Debug, Clone, Copy, PartialEq, Eq, Hash)]
pub enum BuildError {
    /// B or L has no place in a list text.
    TooWide(TooWide),
    /// Building or planning refused the list.
    Refused(Refusal),
}

impl fmt::Display for BuildError {
    fn fmt(&self, f: &mut fmt::Formatter<'_>) -> fmt::Result {
        f.write_str(match self {
            BuildError::TooWide(_) => "no list text can say the list",
            BuildError::Refused(_) => "the list was refused",
        })
    }
}

impl Error for BuildError {
    fn source(&self) -> Option<&(dyn Error + 'static)> {
        Some(match self {
            BuildError::TooWide(error) => error,
            BuildError::Refused(refusal) => refusal,
        })
    }
}

impl From<TooWide> for BuildError {
    fn from(error: TooWide) -> BuildError {
        BuildError::TooWide(error)
    }
}

impl From<Refusal> for BuildError {
    fn from(refusal: Refusal) -> BuildError {
        BuildError::Refused(refusal)
    }
}

/// Builds the image of B groups, seed limit L and the tags at the beginning of `image`, as
/// [`build`] does of their list text.
///
/// ```
/// let mut image = [b'.'; 70];
/// let length = tag_index::build_list(2, 9, &[1, 2, 3], &mut image)?;
/// assert_eq!(length, 66);
/// assert_eq!(&image[66..], b"....");
/// # Ok::<(), tag_index::BuildError>(())
/// ```
///
/// # Panics
///
/// As [`build`].
pub fn build_list(
    groups: u32,
    limit: u32,
    tags: &[u32],
    image: &mut [u8],
) -> Result<usize, BuildError> {
    let text = list_text(groups, limit, tags)?;
    Ok(build(&text, image)?)
}

/// The image of B groups, seed limit L and the tags, in memory of its own.
///
/// ```
/// use tag_index::{BuildError, Reason, Refusal};
/// let image = tag_index::image_of(2, 9, &[1, 2, 3])?;
/// assert_eq!(image.len(), tag_index::image_length(2, 3));
///
/// let error = tag_index::image_of(1, 9, &[5, 5]).unwrap_err();
/// let refusal = Refusal { reason: Reason::NotAscending, place: 1 };
/// assert_eq!(error, BuildError::Refused(refusal));
/// # Ok::<(), BuildError>(())
/// ```
///
/// # Panics
///
/// As [`build`].
pub fn image_of(groups: u32, limit: u32, tags: &[u32]) -> Result<Vec<u8>, BuildError> {
    // A list that building accepts needs no more room than the longest image.
    let mut image = vec![0; image_length(groups, tags.len()).min(LONGEST_IMAGE)];
    let length = build_list(groups, limit, tags, &mut image)?;
    image.truncate(length);
    Ok(image)
}

/// Checks an image of any origin: its length, every line, every group and every slot.
///
/// In an accepted image each slot's tag is found there by [`lookup`], no tag stands twice, and none
/// is 0.
///
/// ```
/// use tag_index::Reason;
/// let mut image = tag_index::image_of(2, 9, &[1, 2, 3])?;
/// tag_index::check(&image)?;
/// image[0] = b'x';
/// let refusal = tag_index::check(&image).unwrap_err();
/// assert_eq!((refusal.reason, refusal.place), (Reason::MalformedLine, 0));
///
/// // Tag 3 in slot 2 becomes tag 0.
/// let mut image = tag_index::image_of(2, 9, &[1, 2, 3])?;
/// image[64] = b'0';
/// let refusal = tag_index::check(&image).unwrap_err();
/// assert_eq!((refusal.reason, refusal.place), (Reason::UnwiredTag, 2));
/// # Ok::<(), tag_index::BuildError>(())
/// ```
///
/// # Panics
///
/// If the library's answer is not one that the papers allow; the proved library's always is.
pub fn check(image: &[u8]) -> Result<(), Refusal> {
    answer::checked(raw::check(image))
}

/// Checks strictly whether an image is as building writes it: it is accepted exactly if there are a list,
/// a group count B and a seed limit L for which [`build`] writes these bytes.
///
/// First come the refusals of [`check`]. Then each group must have the seed and the slots that building
/// gives its tags: the least seed of all 65,536 that serves it, 0 if the group is empty, and of the ways
/// to stand under it the one with the fewest second places, between equals by the lowest tag. The lowest
/// group that has others is refused with [`Reason::NotAsBuilt`]. An image that [`write()`] made under
/// other seeds than planning's is such a one.
///
/// It takes about as long as building the image again.
///
/// ```
/// use tag_index::Reason;
/// let image = tag_index::image_of(2, 9, &[1, 2, 3])?;
/// tag_index::strict_check(&image)?;
///
/// // A site has edited the seed of group 0. It serves too, and every lookup answers as before.
/// let mut edited = image.clone();
/// edited[11..22].copy_from_slice(b"    0    7\n");
/// tag_index::check(&edited)?;
/// let refusal = tag_index::strict_check(&edited).unwrap_err();
/// assert_eq!((refusal.reason, refusal.place), (Reason::NotAsBuilt, 0));
/// assert_eq!(
///     refusal.to_string(),
///     "refusal 19: the seed or the slots of group 0 are not those that building gives its tags"
/// );
///
/// // What checking refuses is refused alike.
/// assert_eq!(tag_index::strict_check(&image[1..]), tag_index::check(&image[1..]));
/// # Ok::<(), tag_index::BuildError>(())
/// ```
///
/// # Panics
///
/// If the library's answer is not one that the papers allow; the proved library's always is.
pub fn strict_check(image: &[u8]) -> Result<(), Refusal> {
    answer::strictly_checked(raw::strict_check(image))
}

/// Looks up a tag: its number, 0 to N - 1, or nothing if the image does not have it.
///
/// The image need not be checked before. The answer depends on its length and on five lines at
/// most, and a fault in one of these is refused. Nobody has tag 0: for it the length and line 0 alone
/// are examined.
///
/// ```
/// let image = tag_index::image_of(2, 9, &[1, 2, 3])?;
/// assert_eq!(tag_index::lookup(&image, 1)?, Some(1));
/// assert_eq!(tag_index::lookup(&image, 7)?, None);
/// assert_eq!(tag_index::lookup(&image, 0)?, None);
/// assert!(tag_index::lookup(&image[..65], 1).is_err());
/// # Ok::<(), tag_index::BuildError>(())
/// ```
///
/// # Panics
///
/// If the library's answer is not one that the papers allow; the proved library's always is.
pub fn lookup(image: &[u8], tag: u32) -> Result<Option<u32>, Refusal> {
    answer::looked_up(raw::lookup(image, tag))
}

/// What placing a group comes to: a seed, and one of a tag's two places under it for each tag, so
/// that no two tags have the same.
#[derive(Debug, Clone, Copy, PartialEq, Eq, Hash)]
pub struct Placement {
    /// The least seed that serves the group, below the seed limit.
    pub seed: u32,
    /// The choice word: bit i, counted from the lowest, is the choice of the tag with index i, 0 for
    /// its first place and 1 for its second. The bits behind the last tag are 0. Of the sequences of
    /// choices that serve, the one with the fewest second places is taken; only between equals does the
    /// lowest tag on which they differ decide, and has its first place.
    pub word: u32,
}

/// Places one group of at most [`LARGEST_GROUP`] tags, in ascending order and without tag 0: the
/// least seed below the limit that serves it, and the choice of each tag.
///
/// An empty group has seed 0 and word 0.
///
/// ```
/// use tag_index::{Placement, Reason};
/// let placement = tag_index::place_group(&[599, 1_193], 1)?;
/// assert_eq!(placement, Placement { seed: 0, word: 2 });
/// // The tag with index 1 takes its second place.
/// let choices = [0, 1].map(|index| placement.word >> index & 1);
/// assert_eq!(choices, [0, 1]);
/// // One second place, though the lowest tag has it: without it both others would have theirs.
/// let placement = tag_index::place_group(&[1, 2, 12], 1)?;
/// assert_eq!(placement, Placement { seed: 0, word: 1 });
///
/// // No seed below L = 1 serves the group of 1 and 3.
/// let refusal = tag_index::place_group(&[1, 3], 1).unwrap_err();
/// assert_eq!((refusal.reason, refusal.place), (Reason::NoSeed, 0));
///
/// let one_too_many: Vec<u32> = (1..=33).collect();
/// let refusal = tag_index::place_group(&one_too_many, 9).unwrap_err();
/// assert_eq!(refusal.reason, Reason::TooManyTags);
/// # Ok::<(), tag_index::Refusal>(())
/// ```
///
/// # Panics
///
/// If the library's answer is not one that the papers allow; the proved library's always is.
pub fn place_group(tags: &[u32], limit: u32) -> Result<Placement, Refusal> {
    let mut word = [0];
    let answer = raw::place_group(tags, limit, &mut word);
    answer::placed(answer, word[0], tags.len(), limit)
}

/// What [`count_parts`] says of a group and a seed: its graph has the n places for points, and each of
/// the n tags for an edge between its two places.
#[derive(Debug, Clone, Copy, PartialEq, Eq, Hash)]
pub struct Parts {
    /// Whether the seed serves the group: some sequence of choices gives each tag a place of its own.
    /// It does exactly if no connected part of the graph has more edges than points.
    pub serves: bool,
    /// How many connected parts there are, whether the seed serves or not. A place that no tag has is a
    /// part by itself.
    pub number: u32,
}

impl Parts {
    /// How many sequences of choices fill the group: 2 to the power of the number of parts, or none if
    /// the seed does not serve.
    ///
    /// ```
    /// let parts = tag_index::count_parts(&[1, 3], 1)?;
    /// assert_eq!(parts.filling_sequences(), 2);
    /// assert_eq!(tag_index::count_parts(&[1, 3], 0)?.filling_sequences(), 0);
    /// # Ok::<(), tag_index::Refusal>(())
    /// ```
    pub const fn filling_sequences(self) -> u64 {
        match self.serves {
            true => 1 << self.number,
            false => 0,
        }
    }
}

/// Tests a seed for one group of at most [`LARGEST_GROUP`] tags, in ascending order and without tag 0:
/// whether it serves, and how many connected parts the group's graph has under it.
///
/// The parts are counted, and no tag is moved. It says that a seed serves exactly where [`place_group`]
/// would take it if it were the least. The empty group is served, with no parts.
///
/// ```
/// use tag_index::{Parts, Reason};
/// // Tag 1 has the place 0 twice under seed 1, and tag 3 has 0 and 1: one part.
/// let parts = tag_index::count_parts(&[1, 3], 1)?;
/// assert_eq!(parts, Parts { serves: true, number: 1 });
/// // Under seed 0 both have no place but 1, and place 0 is a part by itself.
/// let parts = tag_index::count_parts(&[1, 3], 0)?;
/// assert_eq!(parts, Parts { serves: false, number: 2 });
///
/// let refusal = tag_index::count_parts(&[1, 3], 65_536).unwrap_err();
/// assert_eq!((refusal.reason, refusal.place), (Reason::SeedOutOfRange, 0));
/// # Ok::<(), tag_index::Refusal>(())
/// ```
///
/// # Panics
///
/// If the library's answer is not one that the papers allow; the proved library's always is.
pub fn count_parts(tags: &[u32], seed: u32) -> Result<Parts, Refusal> {
    answer::counted(raw::count_parts(tags, seed), tags.len(), seed)
}
