//! The index without tags: building, checking and lookup of document 02, §5.

mod groups;
mod images;
mod lists;

use model::tagless::tagless_length;
use random::Random;
use tag_index::UNKNOWN;

use crate::lists::{absent_tags, Case};
use crate::tally::Tally;
use crate::Size;

pub use groups::{multiples, CLOSE_32_WITH_A_WORD, ROWS_THAT_CANCEL_OUT, SERVED_WITHOUT_A_WORD};

pub fn compare(tally: &mut Tally, random: &mut Random, size: &Size) {
    lists::compare(tally, random, size);
    groups::compare(tally, random, size);
    images::compare(tally, random, size);
}

/// The length of a list's image without tags. Where B is not legal it is that of the nearest that is.
fn length(case: &Case) -> usize {
    tagless_length(case.groups.clamp(1, 512) as usize)
}

/// Builds into a buffer that is just long enough, or a little longer; what building answered, and the
/// image. The groups are counted.
fn build(tally: &mut Tally, random: &mut Random, case: &Case) -> (u64, Vec<u8>) {
    let room = length(case) + random.below(3);
    let (answer, image) = tally.tagless_build(&case.text(), room);
    tally.words(case, answer, &image);
    (answer, image)
}

/// Builds, and where that succeeds checks the image, looks up every tag and strangers, and builds again
/// with the least limit that suffices and with one less. Answers what building answered.
fn rebuild(tally: &mut Tally, random: &mut Random, case: &Case) -> u64 {
    let (answer, image) = build(tally, random, case);
    if answer >> 32 != 0 {
        return answer;
    }
    let mut strangers = absent_tags(random, case);
    strangers.retain(|tag| case.tags.binary_search(tag).is_err());
    let tags = case.tags.iter().copied().chain(strangers);
    let found = examine(tally, &image, tags);
    tally.numbered(case, &image, &found);
    let greatest_seed = group_lines(&image).map(|line| line.seed).max().unwrap_or(0);
    for limit in [greatest_seed + 1, greatest_seed] {
        let tight = Case::new(case.groups, limit, case.tags.clone());
        tally.tagless_build(&tight.text(), length(case));
    }
    answer
}

/// The group lines of an image that is whole.
fn group_lines(image: &[u8]) -> impl Iterator<Item = model::tagless::image::GroupLine> + '_ {
    let lines = image[model::line::LINE..].chunks_exact(model::tagless::image::GROUP_LINE);
    lines.filter_map(model::tagless::image::GroupLine::read)
}

/// What both sides say of one image: the tags with what lookup answered.
fn examine(
    tally: &mut Tally,
    image: &[u8],
    tags: impl IntoIterator<Item = u32>,
) -> Vec<(u32, u64)> {
    let checked = tally.tagless_check(image);
    let found: Vec<(u32, u64)> = tags
        .into_iter()
        .map(|tag| (tag, tally.tagless_lookup(image, tag)))
        .collect();
    // In an image that is accepted a lookup is not refused.
    assert!(checked != 0 || found.iter().all(|&(_, answer)| answer <= UNKNOWN));
    tally.tagless_index(image, checked, &found);
    found
}
