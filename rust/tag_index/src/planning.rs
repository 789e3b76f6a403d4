//! Building in two calls: a plan on one day, the image under it at the shift change.

use std::fmt;

use crate::raw::PLAN_CELLS;
use crate::refusal::Refusal;
use crate::{answer, image_length, list_text, raw, BuildError, LONGEST_IMAGE};

/// The bytes of a stored plan, four for each of its numbers.
pub const PLAN_BYTES: usize = 4 * PLAN_CELLS;

/// A plan: B and 512 seeds, one for each group that there can be.
///
/// [`plan`] makes it, and [`write()`] takes it back. In between it can be stored: as
/// [its numbers](Plan::as_cells) or as [its bytes](Plan::to_le_bytes). Any 513 numbers are a plan, so
/// taking a stored one back refuses nothing; whether it serves a list, writing decides.
///
/// ```
/// use tag_index::{Plan, Reason};
/// let plan = tag_index::plan_list(2, 9, &[1, 2, 3])?;
/// let stored = plan.to_le_bytes();
///
/// let plan = Plan::from_le_bytes(&stored);
/// assert_eq!((plan.groups(), plan.seed(0), plan.seed(1)), (2, Some(0), Some(1)));
/// let image = tag_index::image_under(&[1, 2, 3], &plan)?;
/// assert_eq!(image, tag_index::image_of(2, 9, &[1, 2, 3])?);
///
/// // The list has changed since: seed 1 does not serve group 1, which has tag 9 too.
/// let refusal = tag_index::image_under(&[1, 2, 3, 9], &plan).unwrap_err();
/// assert_eq!((refusal.reason, refusal.place), (Reason::SeedDoesNotServe, 1));
/// # Ok::<(), Box<dyn std::error::Error>>(())
/// ```
#[derive(Clone, PartialEq, Eq, Hash)]
pub struct Plan {
    /// B, and the seed of group g at index 1 + g.
    cells: [u32; PLAN_CELLS],
}

impl Plan {
    /// The group count, B. In a plan that [`plan`] made it is 1 to 512.
    ///
    /// ```
    /// assert_eq!(tag_index::plan_list(2, 9, &[1, 2, 3])?.groups(), 2);
    /// # Ok::<(), tag_index::BuildError>(())
    /// ```
    pub fn groups(&self) -> u32 {
        self.cells[0]
    }

    /// The seed of a group, or nothing if the plan does not have the group: it has B of them, and 512
    /// at most.
    ///
    /// ```
    /// let plan = tag_index::plan_list(2, 9, &[1, 2, 3])?;
    /// assert_eq!([0, 1, 2].map(|group| plan.seed(group)), [Some(0), Some(1), None]);
    /// # Ok::<(), tag_index::BuildError>(())
    /// ```
    pub fn seed(&self, group: u32) -> Option<u32> {
        let seed = self.cells[1..].get(group as usize)?;
        (group < self.groups()).then_some(*seed)
    }

    /// All numbers of the plan: B, and the seed of group g at index 1 + g. In a plan that [`plan`] made
    /// they are 0 from group B on.
    ///
    /// ```
    /// use tag_index::Plan;
    /// let plan = tag_index::plan_list(2, 9, &[1, 2, 3])?;
    /// assert_eq!(plan.as_cells()[..4], [2, 0, 1, 0]);
    /// assert_eq!(Plan::from(*plan.as_cells()), plan);
    /// # Ok::<(), tag_index::BuildError>(())
    /// ```
    pub fn as_cells(&self) -> &[u32; PLAN_CELLS] {
        &self.cells
    }

    /// The plan as bytes: its numbers in their order, the lowest byte of each first.
    ///
    /// ```
    /// let stored = tag_index::plan_list(2, 9, &[1, 2, 3])?.to_le_bytes();
    /// assert_eq!(stored[..12], [2, 0, 0, 0, 0, 0, 0, 0, 1, 0, 0, 0]);
    /// # Ok::<(), tag_index::BuildError>(())
    /// ```
    pub fn to_le_bytes(&self) -> [u8; PLAN_BYTES] {
        let mut bytes = [0; PLAN_BYTES];
        for (quad, cell) in bytes.chunks_exact_mut(4).zip(self.cells) {
            quad.copy_from_slice(&cell.to_le_bytes());
        }
        bytes
    }

    /// The plan that is stored as these bytes.
    ///
    /// ```
    /// use tag_index::Plan;
    /// let plan = tag_index::plan_list(2, 9, &[1, 2, 3])?;
    /// assert_eq!(Plan::from_le_bytes(&plan.to_le_bytes()), plan);
    /// # Ok::<(), tag_index::BuildError>(())
    /// ```
    pub fn from_le_bytes(bytes: &[u8; PLAN_BYTES]) -> Plan {
        let mut cells = [0; PLAN_CELLS];
        for (cell, quad) in cells.iter_mut().zip(bytes.chunks_exact(4)) {
            *cell = u32::from_le_bytes([quad[0], quad[1], quad[2], quad[3]]);
        }
        Plan { cells }
    }
}

impl From<[u32; PLAN_CELLS]> for Plan {
    fn from(cells: [u32; PLAN_CELLS]) -> Plan {
        Plan { cells }
    }
}

impl From<Plan> for [u32; PLAN_CELLS] {
    fn from(plan: Plan) -> [u32; PLAN_CELLS] {
        plan.cells
    }
}

/// B and the seeds, without the zeros behind the last group.
impl fmt::Debug for Plan {
    fn fmt(&self, f: &mut fmt::Formatter<'_>) -> fmt::Result {
        let seeds = &self.cells[1..];
        let used = seeds
            .iter()
            .rposition(|&seed| seed != 0)
            .map_or(0, |last| 1 + last);
        let shown = used.max(self.groups().min(seeds.len() as u32) as usize);
        f.debug_struct("Plan")
            .field("groups", &self.groups())
            .field("seeds", &&seeds[..shown])
            .finish()
    }
}

/// Plans the image of a list text: the least seed below L that serves each of the B groups.
///
/// Planning refuses what [`build`](crate::build) refuses, a buffer that is too short excepted: it has
/// none.
///
/// ```
/// use tag_index::Reason;
/// let text = b"    1    2\n         1\n         3\n";
/// assert_eq!(tag_index::plan(text)?.seed(0), Some(1));
///
/// // No seed below L = 1 serves the group of 1 and 3.
/// let text = b"    1    1\n         1\n         3\n";
/// let refusal = tag_index::plan(text).unwrap_err();
/// assert_eq!((refusal.reason, refusal.place), (Reason::NoSeed, 0));
/// # Ok::<(), tag_index::Refusal>(())
/// ```
///
/// # Panics
///
/// If the library's answer, or the plan that it makes, is not one that the papers allow; the proved
/// library's always are.
pub fn plan(text: &[u8]) -> Result<Plan, Refusal> {
    let mut cells = [0; PLAN_CELLS];
    let answer = raw::plan(text, &mut cells);
    answer::planned(answer, &cells)?;
    Ok(Plan { cells })
}

/// Plans the image of B groups, seed limit L and the tags, as [`plan`] does of their list text.
///
/// ```
/// let plan = tag_index::plan_list(2, 9, &[1, 2, 3])?;
/// assert_eq!(plan, tag_index::plan(b"    2    9\n         1\n         2\n         3\n")?);
/// # Ok::<(), tag_index::BuildError>(())
/// ```
///
/// # Panics
///
/// As [`plan`].
pub fn plan_list(groups: u32, limit: u32, tags: &[u32]) -> Result<Plan, BuildError> {
    let text = list_text(groups, limit, tags)?;
    Ok(plan(&text)?)
}

/// Writes the image of a list text's tags under a plan at the beginning of `image` and answers its
/// length. The text's B and L have to be well formed and mean nothing here: B and the seeds are the
/// plan's.
///
/// The list need not be the one that was planned, nor the plan one that [`plan`] made; a plan that does
/// not serve the list is refused. Each group line has the plan's seed, that of an empty group too. The
/// bytes behind the image stay as they were; a refusal leaves all of them as they were.
///
/// ```
/// use tag_index::Reason;
/// let text = b"    2    9\n         1\n         2\n         3\n";
/// let plan = tag_index::plan(text)?;
/// let mut image = [b'.'; 70];
/// assert_eq!(tag_index::write(text, &plan, &mut image)?, 66);
/// assert_eq!(&image[66..], b"....");
///
/// // The same seeds for another list: no choices give 1 and 13, which are group 1, a place each.
/// let text = b"    2    9\n         1\n         2\n        13\n";
/// let refusal = tag_index::write(text, &plan, &mut image).unwrap_err();
/// assert_eq!((refusal.reason, refusal.place), (Reason::SeedDoesNotServe, 1));
///
/// // Another number than a seed, in place of the seed of group 0.
/// let mut cells = *plan.as_cells();
/// cells[1] = 65_536;
/// let refusal = tag_index::write(text, &cells.into(), &mut image).unwrap_err();
/// assert_eq!((refusal.reason, refusal.place), (Reason::SeedOutOfRange, 0));
/// # Ok::<(), tag_index::Refusal>(())
/// ```
///
/// # Panics
///
/// If the library's answer is not one that the papers allow; the proved library's always is.
pub fn write(text: &[u8], plan: &Plan, image: &mut [u8]) -> Result<usize, Refusal> {
    answer::written(raw::write(text, &plan.cells, image), image.len())
}

/// Writes the image of the tags under a plan at the beginning of `image`, as [`write()`] does of a list
/// text with these tags.
///
/// ```
/// let plan = tag_index::plan_list(2, 9, &[1, 2, 3])?;
/// let mut image = [b'.'; 70];
/// let length = tag_index::write_list(&[1, 2, 3], &plan, &mut image)?;
/// assert_eq!(length, 66);
/// assert_eq!(&image[66..], b"....");
/// # Ok::<(), tag_index::BuildError>(())
/// ```
///
/// # Panics
///
/// As [`write()`].
pub fn write_list(tags: &[u32], plan: &Plan, image: &mut [u8]) -> Result<usize, Refusal> {
    // Any B and L that a text can say are as good.
    let text = list_text(1, 1, tags).expect("1 has room in a list text");
    write(&text, plan, image)
}

/// The image of the tags under a plan, in memory of its own.
///
/// ```
/// let plan = tag_index::plan_list(2, 9, &[1, 2, 3])?;
/// let image = tag_index::image_under(&[1, 2, 3], &plan)?;
/// assert_eq!(image, tag_index::image_of(2, 9, &[1, 2, 3])?);
/// # Ok::<(), tag_index::BuildError>(())
/// ```
///
/// # Panics
///
/// As [`write()`].
pub fn image_under(tags: &[u32], plan: &Plan) -> Result<Vec<u8>, Refusal> {
    // A list and a plan that writing accepts need no more room than the longest image.
    let mut image = vec![0; image_length(plan.groups(), tags.len()).min(LONGEST_IMAGE)];
    let length = write_list(tags, plan, &mut image)?;
    image.truncate(length);
    Ok(image)
}
