//! What came of edited images: those that the strict check accepts are the images of other lists, and
//! building must write them; the others it must not.

use std::collections::{BTreeMap, BTreeSet};

use model::image::Image;
use model::line::line;
use model::placing::LARGEST_GROUP;
use tag_index::raw;

/// Refusals of checking, in its order: each of them comes before 19.
pub const BEFORE_19: [u32; 6] = [11, 12, 17, 13, 14, 15];

/// Edited images, by what the strict check answered.
#[derive(Default)]
pub struct Strict {
    edited: u64,
    accepted: u64,
    /// Refused with 19: at which groups, and the sizes of these.
    not_as_built: u64,
    groups: BTreeSet<u32>,
    sizes: BTreeMap<usize, u64>,
    /// Refused with 19 at the last group of several.
    last_group: u64,
    /// Refused as checking refuses.
    by_checking: u64,
}

impl Strict {
    /// Counts an edited image and the answer of both sides, or says what is wrong with it. By calls of the
    /// library alone: checking's refusals come first, building writes the image if it is accepted, and
    /// otherwise the group named is the lowest that building writes in another way.
    pub fn add(&mut self, image: &[u8], answer: u64) -> Result<(), String> {
        self.edited += 1;
        let checked = raw::check(image);
        if checked != 0 {
            self.by_checking += 1;
            return match answer == checked {
                true => Ok(()),
                false => Err("checking refuses otherwise".to_string()),
            };
        }
        let stated = Image::open(image).map_err(|_| "it has no line 0")?;
        match lowest_unlike(image, &stated)? {
            None if answer == 0 => self.accepted += 1,
            Some(group) if answer == (19 << 32) + group as u64 => {
                self.not_as_built += 1;
                self.groups.insert(group as u32);
                *self.sizes.entry(size_of(&stated, group)).or_insert(0) += 1;
                self.last_group += u64::from(group > 0 && group + 1 == stated.groups);
            }
            None => return Err("building writes it".to_string()),
            Some(group) => return Err(format!("building writes group {group} in another way")),
        }
        Ok(())
    }

    /// Prints the counts, and says whether there were enough: of edited images, accepted and refused with
    /// 19, of groups of 0, 1, 2, 31 and 32 tags among them, and of last groups.
    pub fn report(&self, least: u64) -> bool {
        let Strict {
            edited,
            accepted,
            not_as_built,
            last_group,
            by_checking,
            ..
        } = self;
        let groups = self.groups.len();
        println!("            of the strict check: {edited} images edited; {accepted} of them accepted, other lists' images, and building writes each; {by_checking} refused as checking refuses");
        let of_size = |size| self.sizes.get(&size).copied().unwrap_or(0);
        let sizes = [0, 1, 2, 31, LARGEST_GROUP].map(of_size);
        println!("            {not_as_built} refused with 19, at {groups} different groups, {last_group} of them at the last of several; of 0, 1, 2, 31 and 32 tags: {sizes:?}");
        if *edited < least {
            println!("compare: fewer than {least} images edited");
        }
        *edited >= least
            && *accepted > 0
            && groups > 1
            && *last_group > 0
            && *by_checking > 0
            && sizes.iter().all(|&count| count > 0)
    }
}

/// The lowest group that the library builds in another way, from the image's tags, its B and the greatest
/// L; nothing if it builds the same bytes.
fn lowest_unlike(image: &[u8], stated: &Image) -> Result<Option<usize>, String> {
    let mut tags: Vec<u32> = (0..stated.tags)
        .filter_map(|slot| stated.slot(slot).ok())
        .collect();
    tags.sort_unstable();
    let text = model::list_text(stated.groups as u32, 65_536, &tags);
    let mut built = vec![0; image.len()];
    if raw::build(&text, &mut built) != image.len() as u64 {
        return Err("its tags are not built".to_string());
    }
    let unlike = |index: usize| line(image, index) != line(&built, index);
    let first_slot = 1 + stated.groups;
    let group = (0..stated.groups).find(|&group| {
        let slots = first_slot + start_of(stated, group)..first_slot + start_of(stated, group + 1);
        unlike(1 + group) || slots.into_iter().any(unlike)
    });
    if group.is_none() && built != image {
        return Err("building writes another line 0".to_string());
    }
    Ok(group)
}

/// Where a group of a checked image starts; one behind the last, where that ends.
fn start_of(stated: &Image, group: usize) -> usize {
    match group < stated.groups {
        true => stated.group_line(group).map_or(0, |line| line.start),
        false => stated.tags,
    }
}

/// The number of tags of a group of a checked image.
fn size_of(stated: &Image, group: usize) -> usize {
    start_of(stated, group + 1) - start_of(stated, group)
}
