//! List texts: B and L in the first line, then one tag a line.

use std::error::Error;
use std::fmt;

/// The largest number that a field of five columns holds.
pub const LARGEST_FIELD: u32 = 99_999;

/// B or L is above 99,999 and has no place in the first line of a list text.
///
/// Building would refuse such a list (8 or 4), but no text can say it.
#[derive(Debug, Clone, Copy, PartialEq, Eq, Hash)]
pub enum TooWide {
    /// B, the group count, is above 99,999.
    Groups(u32),
    /// L, the seed limit, is above 99,999.
    Limit(u32),
}

impl fmt::Display for TooWide {
    fn fmt(&self, f: &mut fmt::Formatter<'_>) -> fmt::Result {
        let (name, value) = match self {
            TooWide::Groups(value) => ("the group count B", value),
            TooWide::Limit(value) => ("the seed limit L", value),
        };
        write!(f, "{name} is {value}; a list text holds at most 99999")
    }
}

impl Error for TooWide {}

/// The list text of B groups, seed limit L and the tags, in the order given.
///
/// Nothing else is examined here: [`build`](crate::build) refuses what is out of range, out of
/// order or too much, and tag 0.
///
/// ```
/// let text = tag_index::list_text(2, 9, &[1, 2, 3])?;
/// assert_eq!(text, b"    2    9\n         1\n         2\n         3\n");
/// assert!(tag_index::list_text(100_000, 9, &[]).is_err());
/// # Ok::<(), tag_index::TooWide>(())
/// ```
pub fn list_text(groups: u32, limit: u32, tags: &[u32]) -> Result<Vec<u8>, TooWide> {
    if groups > LARGEST_FIELD {
        return Err(TooWide::Groups(groups));
    }
    if limit > LARGEST_FIELD {
        return Err(TooWide::Limit(limit));
    }
    let mut text = format!("{groups:>5}{limit:>5}\n");
    for tag in tags {
        text.push_str(&format!("{tag:>10}\n"));
    }
    Ok(text.into_bytes())
}
