//! The index without tags: the sibling image, for a box that has no store for 4,096 tags.
//!
//! Its image has a word for each group in place of the tags, and is 11 + 21 × B bytes long, whatever the
//! number of tags. The word of a group says which of its two places each tag takes, so that the listed
//! tags get the numbers 0 to N - 1, each once.
//!
//! **A tag that was not listed gets a number below N too**, if its group is not empty: an image without
//! tags cannot tell it from a listed one. Only a service that asks for listed tags alone can use it.
//!
//! ```
//! use tag_index::{tagless, TaglessIndex};
//! let image = tagless::image_of(2, 9, &[1, 2, 3])?;
//! assert_eq!(image, b"    3    2\n    0    0         0\n    1    1         1\n");
//! let index = TaglessIndex::new(&image)?;
//! assert_eq!([2, 1, 3].map(|tag| index.lookup(tag)), [Some(0), Some(1), Some(2)]);
//! // Tag 4 is a stranger.
//! assert!(index.lookup(4).is_some_and(|number| number < 3));
//! # Ok::<(), Box<dyn std::error::Error>>(())
//! ```

use std::borrow::Cow;

use crate::index::read_line_0;
use crate::refusal::Refusal;
use crate::{answer, list_text, raw, BuildError};

/// The bytes of the longest image without tags, 11 + 21 × 512. A buffer of this length is never too
/// short.
pub const LONGEST_TAGLESS_IMAGE: usize = 10_763;

/// The length of the image without tags of so many groups: 11 + 21 × B bytes, for any number of tags.
///
/// At most [`LONGEST_TAGLESS_IMAGE`] for every B that building accepts; beyond the range of `usize` it
/// stays at the greatest.
///
/// ```
/// use tag_index::tagless;
/// assert_eq!(tagless::image_length(2), 53);
/// assert_eq!(tagless::image_length(512), tagless::LONGEST_TAGLESS_IMAGE);
/// ```
pub const fn image_length(groups: u32) -> usize {
    (groups as usize).saturating_mul(21).saturating_add(11)
}

/// Builds the image without tags of a list text at the beginning of `image`, in one call, and answers its
/// length.
///
/// Each group gets the least seed below L under which some word gives its tags different places, and the
/// least such word. A buffer that is too short is refused before the search, so before a group that has
/// too many tags or no such seed. The bytes behind the image stay as they were; a refusal leaves all of
/// them as they were.
///
/// ```
/// use tag_index::{tagless, Reason};
/// let text = b"    1    1\n        19\n        24\n        43\n";
/// let mut image = [b'.'; 36];
/// // Seed 0 serves the group of 19, 24 and 43, but no word makes the choices that it takes.
/// let refusal = tagless::build(text, &mut image).unwrap_err();
/// assert_eq!((refusal.reason, refusal.place), (Reason::NoSeed, 0));
/// assert_eq!(image, [b'.'; 36]);
///
/// let text = b"    1    3\n        19\n        24\n        43\n";
/// assert_eq!(tagless::build(text, &mut image)?, 32);
/// assert_eq!(&image, b"    3    1\n    0    2         0\n....");
/// # Ok::<(), tag_index::Refusal>(())
/// ```
///
/// # Panics
///
/// If the library's answer is not one that the papers allow; the proved library's always is.
pub fn build(text: &[u8], image: &mut [u8]) -> Result<usize, Refusal> {
    answer::tagless_built(raw::tagless_build(text, image), image.len())
}

/// Builds the image without tags of B groups, seed limit L and the tags at the beginning of `image`, as
/// [`build`] does of their list text.
///
/// ```
/// use tag_index::tagless;
/// let mut image = [b'.'; 56];
/// let length = tagless::build_list(2, 9, &[1, 2, 3], &mut image)?;
/// assert_eq!(length, 53);
/// assert_eq!(&image[53..], b"...");
/// # Ok::<(), tag_index::BuildError>(())
/// ```
///
/// # Panics
///
/// As [`build`].
pub fn build_list(
    groups: u32,
    limit: u32,
    tags: &[u32],
    image: &mut [u8],
) -> Result<usize, BuildError> {
    let text = list_text(groups, limit, tags)?;
    Ok(build(&text, image)?)
}

/// The image without tags of B groups, seed limit L and the tags, in memory of its own.
///
/// ```
/// use tag_index::{tagless, BuildError, Reason, Refusal};
/// let image = tagless::image_of(2, 9, &[1, 2, 3])?;
/// assert_eq!(image.len(), tagless::image_length(2));
///
/// let error = tagless::image_of(1, 9, &[5, 5]).unwrap_err();
/// let refusal = Refusal { reason: Reason::NotAscending, place: 1 };
/// assert_eq!(error, BuildError::Refused(refusal));
/// # Ok::<(), BuildError>(())
/// ```
///
/// # Panics
///
/// As [`build`].
pub fn image_of(groups: u32, limit: u32, tags: &[u32]) -> Result<Vec<u8>, BuildError> {
    // A list that building accepts needs no more room than the longest image.
    let mut image = vec![0; image_length(groups).min(LONGEST_TAGLESS_IMAGE)];
    let length = build_list(groups, limit, tags, &mut image)?;
    image.truncate(length);
    Ok(image)
}

/// Checks an image without tags of any origin: its length, every line and every group.
///
/// In an accepted image every number that [`lookup`] answers is below N. That it is the image of some
/// list is not examined: any seeds and words are accepted.
///
/// ```
/// use tag_index::{tagless, Reason};
/// let mut image = tagless::image_of(2, 9, &[1, 2, 3])?;
/// tagless::check(&image)?;
/// // Group 1 starts behind the last tag.
/// image[36] = b'4';
/// let refusal = tagless::check(&image).unwrap_err();
/// assert_eq!((refusal.reason, refusal.place), (Reason::FaultyGroup, 1));
/// // A word of 4,294,967,296, in line 1 + 1.
/// image[42..52].copy_from_slice(b"4294967296");
/// let refusal = tagless::check(&image).unwrap_err();
/// assert_eq!((refusal.reason, refusal.place), (Reason::MalformedLine, 2));
/// # Ok::<(), tag_index::BuildError>(())
/// ```
///
/// # Panics
///
/// If the library's answer is not one that the papers allow; the proved library's always is.
pub fn check(image: &[u8]) -> Result<(), Refusal> {
    answer::tagless_checked(raw::tagless_check(image))
}

/// Looks up a tag in an image without tags: a number below N, or nothing for tag 0 and for a tag whose
/// group is empty.
///
/// A listed tag gets its own number. A tag that was not listed gets some listed tag's number, unless its
/// group is empty: the image does not have the tags, and cannot know.
///
/// The image need not be checked before. The answer depends on its length, on line 0 and on two group
/// lines at most, and a fault in one of these is refused. Nobody has tag 0: for it the length and line 0
/// alone are examined.
///
/// ```
/// use tag_index::tagless;
/// let image = tagless::image_of(2, 9, &[1, 3])?;
/// assert_eq!(tagless::lookup(&image, 1)?, Some(0));
/// assert_eq!(tagless::lookup(&image, 3)?, Some(1));
/// // Tag 2 is in group 0, which is empty; tag 9 in group 1, which is not.
/// assert_eq!(tagless::lookup(&image, 2)?, None);
/// assert!(tagless::lookup(&image, 9)?.is_some());
/// assert_eq!(tagless::lookup(&image, 0)?, None);
/// assert!(tagless::lookup(&image[..52], 1).is_err());
/// # Ok::<(), tag_index::BuildError>(())
/// ```
///
/// # Panics
///
/// If the library's answer is not one that the papers allow; the proved library's always is.
pub fn lookup(image: &[u8], tag: u32) -> Result<Option<u32>, Refusal> {
    answer::tagless_looked_up(raw::tagless_lookup(image, tag))
}

/// An image without tags that checking accepted: its lookups answer a number below N or nothing, and
/// never refuse.
///
/// It borrows the bytes or owns them, and keeps them from being changed; so it is checked once, and
/// looked up in as often as wanted. That lookup never refuses in a checked image, and answers below N, is
/// proved of the functions behind the C boundary.
///
/// **A tag that was not listed gets a number below N too**, unless its group is empty. It is no set of
/// tags: ask it for listed tags only.
///
/// ```
/// use tag_index::{tagless, TaglessIndex};
/// let image = tagless::image_of(2, 9, &[1, 2, 3])?;
/// let index = TaglessIndex::new(&image)?;
/// assert_eq!(index.lookup(3), Some(2));
/// assert!(index.lookup(4).is_some_and(|number| number < 3));
/// # Ok::<(), Box<dyn std::error::Error>>(())
/// ```
///
/// A gauge box that keeps its index gives the bytes away:
///
/// ```
/// use tag_index::{tagless, TaglessIndex};
/// struct GaugeBox {
///     index: TaglessIndex<'static>,
/// }
/// let image = tagless::image_of(2, 9, &[1, 2, 3])?;
/// let gauge_box = GaugeBox { index: TaglessIndex::new(image)? };
/// assert_eq!(gauge_box.index.lookup(1), Some(1));
/// # Ok::<(), Box<dyn std::error::Error>>(())
/// ```
///
/// While it borrows, nobody can change the bytes:
///
/// ```compile_fail,E0506
/// use tag_index::{tagless, TaglessIndex};
/// let mut image = tagless::image_of(2, 9, &[1, 2, 3]).unwrap();
/// let index = TaglessIndex::new(&image[..]).unwrap();
/// image = Vec::new();
/// assert_eq!(index.lookup(3), Some(2));
/// ```
#[derive(Debug, Clone, PartialEq, Eq, Hash)]
pub struct TaglessIndex<'a> {
    image: Cow<'a, [u8]>,
    /// N and B, as line 0 states them.
    count: usize,
    groups: u32,
}

impl<'a> TaglessIndex<'a> {
    /// Checks an image without tags of any origin, and takes it if it is accepted: a slice or a `Vec`,
    /// borrowed, or a `Vec` to keep.
    ///
    /// ```
    /// use tag_index::{tagless, Reason, TaglessIndex};
    /// // An image with tags is none without: its length is another.
    /// let image = tag_index::image_of(2, 9, &[1, 2, 3])?;
    /// let refusal = TaglessIndex::new(&image).unwrap_err();
    /// assert_eq!((refusal.reason, refusal.place), (Reason::WrongLength, 0));
    /// # Ok::<(), tag_index::BuildError>(())
    /// ```
    ///
    /// # Panics
    ///
    /// As [`check`].
    pub fn new(image: impl Into<Cow<'a, [u8]>>) -> Result<TaglessIndex<'a>, Refusal> {
        let image = image.into();
        check(&image)?;
        let (count, groups) = stated(&image);
        Ok(TaglessIndex {
            image,
            count,
            groups,
        })
    }

    /// Looks up a tag: a number, 0 to N - 1, or nothing for tag 0 and for a tag whose group is empty. A
    /// listed tag gets its own number; a tag that was not listed gets some listed tag's.
    ///
    /// ```
    /// let index = tag_index::TaglessIndex::new(b"    0    1\n    0    0         0\n")?;
    /// assert_eq!(index.lookup(7), None);
    /// let index = tag_index::TaglessIndex::new(b"    1    1\n    0    0         0\n")?;
    /// assert_eq!(index.lookup(7), Some(0));
    /// assert_eq!(index.lookup(8), Some(0));
    /// assert_eq!(index.lookup(0), None);
    /// # Ok::<(), tag_index::Refusal>(())
    /// ```
    ///
    /// # Panics
    ///
    /// If the library refuses, or answers a number that is not below N. The proved library does neither
    /// in a checked image.
    pub fn lookup(&self, tag: u32) -> Option<u32> {
        answer::tagless_found(raw::tagless_lookup(&self.image, tag), self.count)
    }

    /// The number of tags, N.
    ///
    /// ```
    /// use tag_index::{tagless, TaglessIndex};
    /// assert_eq!(TaglessIndex::new(tagless::image_of(2, 9, &[1, 2, 3])?)?.len(), 3);
    /// # Ok::<(), Box<dyn std::error::Error>>(())
    /// ```
    pub fn len(&self) -> usize {
        self.count
    }

    /// Whether there is no tag.
    ///
    /// ```
    /// use tag_index::{tagless, TaglessIndex};
    /// assert!(TaglessIndex::new(tagless::image_of(2, 9, &[])?)?.is_empty());
    /// # Ok::<(), Box<dyn std::error::Error>>(())
    /// ```
    pub fn is_empty(&self) -> bool {
        self.count == 0
    }

    /// The group count, B.
    ///
    /// ```
    /// use tag_index::{tagless, TaglessIndex};
    /// assert_eq!(TaglessIndex::new(tagless::image_of(2, 9, &[1, 2, 3])?)?.groups(), 2);
    /// # Ok::<(), Box<dyn std::error::Error>>(())
    /// ```
    pub fn groups(&self) -> u32 {
        self.groups
    }

    /// The image.
    ///
    /// ```
    /// use tag_index::{tagless, TaglessIndex};
    /// let image = tagless::image_of(2, 9, &[1, 2, 3])?;
    /// assert_eq!(TaglessIndex::new(&image)?.as_bytes(), image);
    /// # Ok::<(), Box<dyn std::error::Error>>(())
    /// ```
    pub fn as_bytes(&self) -> &[u8] {
        &self.image
    }
}

/// N and B as line 0 of a checked image states them; B fits the length.
fn stated(image: &[u8]) -> (usize, u32) {
    match read_line_0(image) {
        Some((count, groups)) if image_length(groups) == image.len() => (count, groups),
        _ => panic!(
            "checking accepted an image without tags whose length is not what line 0 states: {}",
            answer::WRONG_LIBRARY
        ),
    }
}

#[cfg(test)]
mod tests {
    use super::{image_length, stated};
    use std::panic::catch_unwind;

    #[test]
    fn a_first_line_that_is_none_or_says_another_length_panics() {
        let image = b"    7    1\n    0    0         0\n";
        assert_eq!(stated(image), (7, 1));
        for image in [
            &b""[..],
            b"    0    1",
            b"    0    2\n    0    0         0\n",
            b"    0    x\n",
            &image[..31],
        ] {
            assert!(catch_unwind(|| stated(image)).is_err(), "{image:?}");
        }
    }

    #[test]
    fn lengths_do_not_wrap() {
        assert_eq!(image_length(1), 32);
        assert!(image_length(u32::MAX) > u32::MAX as usize);
    }
}
