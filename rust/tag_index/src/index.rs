//! An image that was checked, and lookups in it that cannot fail.

use std::borrow::Cow;

use crate::refusal::Refusal;
use crate::{answer, check, image_length, raw};

/// An image that checking accepted: its lookups answer a number or nothing, and never refuse.
///
/// It borrows the bytes or owns them, and keeps them from being changed; so it is checked once, and
/// looked up in as often as wanted. That lookup never refuses in a checked image, and answers the
/// number that the image states, is proved of the functions behind the C boundary.
///
/// ```
/// use tag_index::Index;
/// let image = tag_index::image_of(2, 9, &[1, 2, 3])?;
/// let index = Index::new(&image)?;
/// assert_eq!(index.lookup(3), Some(2));
/// assert_eq!(index.lookup(4), None);
/// # Ok::<(), Box<dyn std::error::Error>>(())
/// ```
///
/// A service that keeps its index gives the bytes away:
///
/// ```
/// use tag_index::Index;
/// struct Service {
///     index: Index<'static>,
/// }
/// let image = tag_index::image_of(2, 9, &[1, 2, 3])?;
/// let service = Service { index: Index::new(image)? };
/// assert_eq!(service.index.lookup(1), Some(1));
/// # Ok::<(), Box<dyn std::error::Error>>(())
/// ```
///
/// While it borrows, nobody can change the bytes:
///
/// ```compile_fail,E0506
/// use tag_index::Index;
/// let mut image = tag_index::image_of(2, 9, &[1, 2, 3]).unwrap();
/// let index = Index::new(&image[..]).unwrap();
/// image = Vec::new();
/// assert_eq!(index.lookup(3), Some(2));
/// ```
#[derive(Debug, Clone, PartialEq, Eq, Hash)]
pub struct Index<'a> {
    image: Cow<'a, [u8]>,
    /// N and B, as line 0 states them.
    count: usize,
    groups: u32,
}

impl<'a> Index<'a> {
    /// Checks an image of any origin, and takes it if it is accepted: a slice or a `Vec`, borrowed,
    /// or a `Vec` to keep.
    ///
    /// ```
    /// use tag_index::{Index, Reason};
    /// let mut image = tag_index::image_of(2, 9, &[1, 2, 3])?;
    /// // Tag 1 once more, in slot 2, which is neither of its places.
    /// image.copy_within(44..55, 55);
    /// let refusal = Index::new(&image).unwrap_err();
    /// assert_eq!((refusal.reason, refusal.place), (Reason::WrongSlot, 2));
    /// # Ok::<(), tag_index::BuildError>(())
    /// ```
    ///
    /// # Panics
    ///
    /// As [`check`](crate::check).
    pub fn new(image: impl Into<Cow<'a, [u8]>>) -> Result<Index<'a>, Refusal> {
        let image = image.into();
        check(&image)?;
        let (count, groups) = stated(&image);
        Ok(Index {
            image,
            count,
            groups,
        })
    }

    /// Looks up a tag: its number, 0 to N - 1, or nothing if the image does not have it. No image has
    /// tag 0.
    ///
    /// ```
    /// let index = tag_index::Index::new(b"    0    1\n    0    0\n")?;
    /// assert_eq!(index.lookup(7), None);
    /// assert_eq!(index.lookup(0), None);
    /// # Ok::<(), tag_index::Refusal>(())
    /// ```
    ///
    /// # Panics
    ///
    /// If the library refuses, or answers a number of no slot. The proved library does neither in a
    /// checked image.
    pub fn lookup(&self, tag: u32) -> Option<u32> {
        answer::found(raw::lookup(&self.image, tag), self.count)
    }

    /// The number of tags, N.
    ///
    /// ```
    /// let image = tag_index::image_of(2, 9, &[1, 2, 3])?;
    /// assert_eq!(tag_index::Index::new(image)?.len(), 3);
    /// # Ok::<(), Box<dyn std::error::Error>>(())
    /// ```
    pub fn len(&self) -> usize {
        self.count
    }

    /// Whether there is no tag.
    ///
    /// ```
    /// assert!(tag_index::Index::new(tag_index::image_of(2, 9, &[])?)?.is_empty());
    /// # Ok::<(), Box<dyn std::error::Error>>(())
    /// ```
    pub fn is_empty(&self) -> bool {
        self.count == 0
    }

    /// The group count, B.
    ///
    /// ```
    /// let image = tag_index::image_of(2, 9, &[1, 2, 3])?;
    /// assert_eq!(tag_index::Index::new(image)?.groups(), 2);
    /// # Ok::<(), Box<dyn std::error::Error>>(())
    /// ```
    pub fn groups(&self) -> u32 {
        self.groups
    }

    /// The image.
    ///
    /// ```
    /// let image = tag_index::image_of(2, 9, &[1, 2, 3])?;
    /// assert_eq!(tag_index::Index::new(&image)?.as_bytes(), image);
    /// # Ok::<(), Box<dyn std::error::Error>>(())
    /// ```
    pub fn as_bytes(&self) -> &[u8] {
        &self.image
    }
}

/// N and B as line 0 of a checked image states them, in five columns each.
pub(crate) fn read_line_0(image: &[u8]) -> Option<(usize, u32)> {
    let field = |from: usize| {
        let columns = std::str::from_utf8(image.get(from..from + 5)?).ok()?;
        columns.trim_start().parse::<u32>().ok()
    };
    Some((field(0)? as usize, field(5)?))
}

/// N and B as line 0 of a checked image states them; they fit its length.
fn stated(image: &[u8]) -> (usize, u32) {
    match read_line_0(image) {
        Some((count, groups)) if image_length(groups, count) == image.len() => (count, groups),
        _ => panic!(
            "checking accepted an image whose length is not what line 0 states: {}",
            answer::WRONG_LIBRARY
        ),
    }
}

#[cfg(test)]
mod tests {
    use super::stated;
    use std::panic::catch_unwind;

    #[test]
    fn a_first_line_that_is_none_or_says_another_length_panics() {
        assert_eq!(stated(b"    0    1\n    0    0\n"), (0, 1));
        for image in [
            &b""[..],
            b"    0    1",
            b"    1    1\n    0    0\n",
            b"    0    x\n",
        ] {
            assert!(catch_unwind(|| stated(image)).is_err(), "{image:?}");
        }
    }
}
