//! Numbers at the ends of each width, 1 to 10 columns, in every field that is written: tags, N and B,
//! starts and seeds. The printer's refusals have them as places.

use model::line::LINE;
use random::Random;

use crate::lists::{different, rebuild, tags_of_group, Case};
use crate::plans::plan;
use crate::tally::{differs, shown, Tally};

/// The first and the last number of each width, with the numbers next to them, from 1 to the greatest.
fn ends(greatest: u32) -> Vec<u32> {
    let powers = (0..=9).map(|power| 10u32.pow(power));
    let mut ends: Vec<u32> = powers
        .flat_map(|first| [first.saturating_sub(2), first - 1, first, first + 1])
        .chain([u32::MAX - 1, u32::MAX])
        .filter(|end| (1..=greatest).contains(end))
        .collect();
    ends.sort_unstable();
    ends.dedup();
    ends
}

/// Builds a list that is accepted, with a buffer of just the right length.
fn build(tally: &mut Tally, case: &Case) {
    accepted(case, tally.build(&case.text(), case.length()));
}

/// Ends the run if both sides refused what they must accept.
fn accepted(case: &Case, answer: u64) {
    if answer != case.length() as u64 {
        let text = shown(&case.text());
        differs(&format!(
            "at the ends of widths: both sides answer {answer}\n{text}"
        ));
    }
}

pub fn compare(tally: &mut Tally, random: &mut Random) {
    tags(tally, random);
    counts(tally, random);
    starts(tally);
    seeds(tally);
}

/// Each tag alone, all together, and random tags of each width.
fn tags(tally: &mut Tally, random: &mut Random) {
    tally.kind("tags at the ends of widths");
    let ends = ends(u32::MAX);
    for &tag in &ends {
        let case = Case::new(1, 1, [tag]);
        accepted(&case, rebuild(tally, random, &case));
    }
    for groups in [2, 10, 100, 512] {
        let case = Case::new(groups, 65_536, ends.clone());
        accepted(&case, rebuild(tally, random, &case));
    }
    tally.kind("tags of one width");
    for power in 0..=9 {
        let first = 10u64.pow(power);
        let most = (10 * first).min(1 << 32) - first;
        let tags = different(40.min(most as usize / 2), || {
            (first + random.next_u64() % most) as u32
        });
        rebuild(tally, random, &Case::new(10, 65_536, tags));
    }
}

/// N and B, at most eight times as many tags as groups.
fn counts(tally: &mut Tally, random: &mut Random) {
    tally.kind("N and B at the ends of widths");
    for groups in ends(512) {
        for count in [0].into_iter().chain(ends(4_096)) {
            if count <= 8 * groups {
                let tags = different(count as usize, || random.tag());
                build(tally, &Case::new(groups, 65_536, tags));
            }
        }
    }
}

/// Every start up to 4,087: 512 groups of eight tags each, but for the first, which has 0 to 7.
fn starts(tally: &mut Tally) {
    tally.kind("every start");
    for first in 0..8 {
        let mut tags: Vec<u32> = (0..512)
            .flat_map(|group| tags_of_group(group, 512, if group == 0 { first } else { 8 }))
            .collect();
        tags.sort_unstable();
        build(tally, &Case::new(512, 65_536, tags));
    }
}

/// Every seed, in the lines of groups without tags.
fn seeds(tally: &mut Tally) {
    tally.kind("every seed");
    let case = Case::new(512, 1, []);
    for first in (0..65_536).step_by(512) {
        let seeds: Vec<u32> = (first..first + 512).collect();
        accepted(
            &case,
            tally.write(&case.text(), &plan(&seeds), case.length()),
        );
    }
}

/// Texts for the printer: all these tags at once, and a tag that repeats the one before it, a malformed
/// line and a group of 33 tags, each at such a place.
pub fn texts() -> Vec<Vec<u8>> {
    let mut texts = vec![Case::new(2, 65_536, ends(u32::MAX)).text()];
    for place in ends(4_095) {
        let tags: Vec<u32> = (1..=place).chain([place]).collect();
        let repeated = Case::new(512, 1, tags).text();
        let mut malformed = repeated.clone();
        malformed[LINE * place as usize + 9] = b'x';
        texts.extend([repeated, malformed]);
        if place < 512 {
            texts.push(Case::new(512, 1, tags_of_group(place, 512, 33)).text());
        }
    }
    texts
}
