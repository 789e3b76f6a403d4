//! Lists: random and structured ones, all boundary counts, every refusal of building, and buffers.

use std::collections::BTreeSet;

use model::hash::group_of;
use model::image::image_length;
use model::list_text;
use model::placing::LARGEST_GROUP;
use random::Random;

use crate::groups::{two_on_place_0, without_place_0, LAST_SEED};
use crate::tally::Tally;
use crate::Size;

/// A group count, a seed limit and ascending tags.
#[derive(Clone)]
pub struct Case {
    pub groups: u32,
    pub limit: u32,
    pub tags: Vec<u32>,
}

impl Case {
    pub fn new(groups: u32, limit: u32, tags: impl Into<Vec<u32>>) -> Case {
        Case {
            groups,
            limit,
            tags: tags.into(),
        }
    }

    pub fn text(&self) -> Vec<u8> {
        list_text(self.groups, self.limit, &self.tags)
    }

    pub fn length(&self) -> usize {
        image_length(self.groups as usize, self.tags.len())
    }
}

pub fn compare(tally: &mut Tally, random: &mut Random, size: &Size) {
    worked(tally);
    ranges(tally);
    order_of_refusals(tally);
    ascending(tally, random);
    counts(tally, random);
    buffers(tally, random);
    without_seed(tally, random, size);
    for _ in 0..size.all_full {
        all_full(tally, random);
    }
    for _ in 0..size.lists {
        for (kind, case) in structured(random) {
            tally.kind(kind);
            rebuild(tally, random, &case);
        }
    }
    for _ in 0..size.full_lists {
        tally.kind("full groups");
        let case = full(random);
        rebuild(tally, random, &case);
        tally.kind("close-numbered lists");
        let case = close_numbered(random);
        rebuild(tally, random, &case);
        tally.kind("one group of 33 and more");
        too_large(tally, random);
    }
    for _ in 0..size.large_lists {
        tally.kind("large lists");
        let case = large(random);
        rebuild(tally, random, &case);
    }
}

/// Builds, and where that succeeds checks the image, strictly too, looks up every tag and a few others, and
/// builds again with the least limit that suffices and with one less. Answers what building answered.
pub fn rebuild(tally: &mut Tally, random: &mut Random, case: &Case) -> u64 {
    let text = case.text();
    let answer = tally.build(&text, case.length() + random.below(3));
    if answer >> 32 != 0 {
        return answer;
    }
    let image = model::image_of(&case.tags, case.groups, case.limit).expect("it was built");
    tally.check(&image);
    assert_eq!(tally.strict_check(&image), 0);
    for &tag in &case.tags {
        tally.lookup(&image, tag);
    }
    for tag in absent_tags(random, case) {
        tally.lookup(&image, tag);
    }
    let greatest_seed = (1..=case.groups as usize)
        .filter_map(|line| model::line::read_two(model::line::line(&image, line)))
        .map(|(_, seed)| seed)
        .max()
        .unwrap_or(0);
    for limit in [greatest_seed + 1, greatest_seed] {
        let tight = Case::new(case.groups, limit, case.tags.clone());
        tally.build(&tight.text(), case.length());
    }
    answer
}

/// Tags that are mostly not listed. Each kind stands among the first five: both ends, a tag of an
/// empty group where there is one, a neighbour of a listed tag, any tag.
pub fn absent_tags(random: &mut Random, case: &Case) -> Vec<u32> {
    let occupied: BTreeSet<u32> = case
        .tags
        .iter()
        .map(|&tag| group_of(tag, case.groups))
        .collect();
    let mut empty_group = Vec::new();
    for _ in 0..40 {
        let tag = random.tag();
        if !occupied.contains(&group_of(tag, case.groups)) {
            empty_group.push(tag);
        }
    }
    let mut neighbours = Vec::new();
    for _ in 0..3 {
        if !case.tags.is_empty() {
            let tag = case.tags[random.below(case.tags.len())];
            neighbours.extend([tag.wrapping_add(1), tag.wrapping_sub(1), tag ^ 1 << 31]);
        }
    }
    let mut tags = vec![0, u32::MAX];
    tags.extend(empty_group.pop());
    tags.extend(neighbours.pop());
    tags.extend([random.tag(), 1, 1 << 31, u32::MAX - 1]);
    tags.extend(empty_group);
    tags.extend(neighbours);
    tags.extend((0..6).map(|_| random.tag()));
    tags
}

/// Five tags that no seed serves, since place 2 is never reached: multipliers are odd, so an odd
/// multiple of 2^29 stays one, and has the place 0, 1, 3 or 4; two times 2^29 has the place 1 or 3.
pub const WITHOUT_PLACE_2: [u32; 5] = [1 << 29, 2 << 29, 3 << 29, 5 << 29, 7 << 29];

/// Six tags that no seed serves though every place is touched: the four odd multiples of 2^29 and
/// four times 2^29 have only the places 0, 2, 3 and 5, four places for five tags.
pub const FIVE_ON_FOUR_PLACES: [u32; 6] = [1 << 29, 2 << 29, 3 << 29, 4 << 29, 5 << 29, 7 << 29];

/// The tags behind tag 0, for which 17 is due.
pub fn behind_0(tags: &[u32]) -> Vec<u32> {
    [&[0], tags].concat()
}

/// Ascending tags, `count` different values of `draw` that are not 0.
pub fn different(count: usize, mut draw: impl FnMut() -> u32) -> Vec<u32> {
    let mut tags = BTreeSet::new();
    // A source with few values may run dry: then there are fewer tags.
    for _ in 0..20 * count + 20 {
        if tags.len() == count {
            break;
        }
        tags.insert(draw());
        tags.remove(&0);
    }
    tags.into_iter().collect()
}

/// One list of each kind, most of them small enough that a seed is found.
pub fn structured(random: &mut Random) -> Vec<(&'static str, Case)> {
    let groups = [1, 1, 2, 3, 5, 8, 17, 64, 511, 512][random.below(10)];
    let limit = [1, 2, 9, 99, 999, 65_536][random.below(6)];
    let most = (12 * groups as usize).min(160);
    let count = random.within(0, most);
    let mut cases = Vec::new();
    let mut add = |kind, tags: Vec<u32>| cases.push((kind, Case::new(groups, limit, tags)));

    add("random lists", different(count, || random.tag()));
    let first = random.tag();
    let dense = (0..count as u32).map_while(|step| first.checked_add(step));
    add("dense lists", dense.collect());
    let low = 1 + random.below(5) as u32;
    add("dense lists", (low..low + count as u32).collect());
    let stride = u32::MAX / (count as u32 + 1);
    add(
        "sparse lists",
        (1..=count as u32).map(|k| k * stride).collect(),
    );
    let centres: Vec<u32> = (0..random.within(1, 4)).map(|_| random.tag()).collect();
    let near = different(count, || {
        centres[random.below(centres.len())].wrapping_add(random.below(200) as u32)
    });
    add("clustered lists", near);
    let shift = random.within(1, 31);
    let multiples = different(count.min(LARGEST_GROUP), || {
        (random.tag() >> shift) << shift
    });
    add("multiples of a power of two", multiples);
    let mut ends = different(count.min(LARGEST_GROUP - 2), || random.tag());
    ends.extend([1, u32::MAX]);
    ends.sort_unstable();
    ends.dedup();
    add("lists with 1 and 4294967295", ends);
    let powers = different(count.min(32), || 1 << random.below(32));
    add("powers of two", powers);
    let own = random.below(groups as usize) as u32;
    let alone = random.within(0, LARGEST_GROUP);
    let alone = different(alone, || tag_of_group(random, own, groups));
    add("all tags in one group", alone);
    // Any of these with tag 0 in front.
    let any = &cases[random.below(cases.len())].1;
    let unwired = Case::new(groups, limit, behind_0(&any.tags));
    cases.push(("lists with tag 0", unwired));
    cases
}

/// Every group with 18 to 32 tags, for which the search takes its time.
pub fn full(random: &mut Random) -> Case {
    let groups = random.within(1, 8) as u32;
    let mut tags = Vec::new();
    for group in 0..groups {
        let count = random.within(18, LARGEST_GROUP);
        tags.extend(different(count, || tag_of_group(random, group, groups)));
    }
    tags.sort_unstable();
    Case::new(groups, 65_536, tags)
}

/// Consecutive tags, 24 to 31 for each group: they spread over the groups almost evenly.
pub fn close_numbered(random: &mut Random) -> Case {
    let groups = random.within(1, 8) as u32;
    let count = groups * random.within(24, 31) as u32;
    let first = random.tag().min(u32::MAX - count);
    Case::new(groups, 65_536, (first..first + count).collect::<Vec<_>>())
}

/// Few tags in most groups, and 33 to 40 in one or two of them.
pub fn overfull(random: &mut Random) -> Case {
    let groups = random.within(2, 512) as u32;
    let mut tags = different(groups as usize, || random.tag());
    for _ in 0..random.within(1, 2) {
        let group = random.below(groups as usize) as u32;
        let count = random.within(LARGEST_GROUP + 1, 40);
        tags.extend(different(count, || tag_of_group(random, group, groups)));
    }
    tags.sort_unstable();
    tags.dedup();
    Case::new(groups, 65_536, tags)
}

/// 10 at the lower one of the groups with too many tags.
fn too_large(tally: &mut Tally, random: &mut Random) {
    let Case {
        groups,
        limit,
        tags,
    } = overfull(random);
    // With a byte less, 10 comes before 9; with tag 0 in front, 17 before both.
    for tags in [behind_0(&tags), tags] {
        let case = Case::new(groups, limit, tags);
        for room in [case.length(), case.length() - 1] {
            tally.build(&case.text(), room);
        }
    }
}

pub fn tag_of_group(random: &mut Random, group: u32, groups: u32) -> u32 {
    loop {
        let tag = random.tag();
        if group_of(tag, groups) == group {
            return tag;
        }
    }
}

/// Up to 4,096 tags, none of them in a group that has its share already.
pub fn large(random: &mut Random) -> Case {
    let groups = random.within(400, 512) as u32;
    let share = random.within(8, 11);
    let count = random.within(2_000, 4_096.min(share * groups as usize * 3 / 4));
    let mut sizes = vec![0; groups as usize];
    let mut tags = BTreeSet::new();
    while tags.len() < count {
        let tag = random.tag();
        let size = &mut sizes[group_of(tag, groups) as usize];
        if *size < share && tags.insert(tag) {
            *size += 1;
        }
    }
    Case::new(groups, 65_536, tags.into_iter().collect::<Vec<_>>())
}

/// The first tags of a group, from tag 1 on.
pub fn tags_of_group(group: u32, groups: u32, count: usize) -> Vec<u32> {
    (1..)
        .filter(|&tag| group_of(tag, groups) == group)
        .take(count)
        .collect()
}

/// The worked values of document 01 that are lists, and the traps, each with its limit.
pub const WORKED: &[(u32, &[u32])] = &[
    (1, &[1, 2]),
    (1, &[1, 3]),
    (2, &[1, 3]),
    (1, &[0, 2_147_483_648]),
    (1, &[0, 1_073_741_824]),
    (1, &[0, 1_073_741_824, 3_221_225_472]),
    (65_536, &[0, 1_073_741_824, 3_221_225_472]),
    (1, &[13, 2_147_483_648]),
    (1, &[13, 1_073_741_824]),
    (1, &[]),
    (1, &[5, 5]),
    (9, &[13, 57, 61]),
    (9, &[14, 337_764_173, 964_266_638, 2_787_973_142]),
    (1, &[599, 1_193]),
    (1, &[24, 1_445_023_297]),
    (99, &[6, 8, 33, 37, 39, 55]),
    (1, &[61, 152]),
];

fn worked(tally: &mut Tally) {
    tally.kind("worked values and traps");
    for &(limit, tags) in WORKED {
        let case = Case::new(1, limit, tags);
        tally.build(&case.text(), case.length());
    }
    let whole = Case::new(2, 9, [1, 2, 3]);
    for room in [0, 65, 66, 67] {
        tally.build(&whole.text(), room);
    }
}

/// B and L at the ends of their ranges and beyond them, up to what a text can say.
fn ranges(tally: &mut Tally) {
    tally.kind("ranges of B and L");
    for groups in [0, 1, 2, 511, 512, 513, 1_000, 65_536, 99_999] {
        for limit in [0, 1, 2, 65_535, 65_536, 65_537, 99_999] {
            for first in [0, 1] {
                let case = Case::new(groups, limit, [first, 7, 70_001, u32::MAX]);
                tally.build(&case.text(), case.length());
            }
        }
    }
}

/// Several conditions met at once: the first in the order written decides.
fn order_of_refusals(tally: &mut Tally) {
    tally.kind("several conditions at once");
    let many: Vec<u32> = (1..=4_097).collect();
    let full = tags_of_group(0, 1, LARGEST_GROUP + 1);
    let lists: [&[u32]; 6] = [&many, &full, &WITHOUT_PLACE_2, &[5, 5], &[1, 2], &[]];
    // Each of them as it is, and with tag 0 in front: 17 beside 5, 10, 7, 6 and alone, and in the
    // shorter buffers beside 9.
    let lists = lists.map(|tags| [tags.to_vec(), behind_0(tags)]).concat();
    for groups in [0, 1, 513] {
        for limit in [0, 1, 65_537] {
            for tags in lists.iter().chain([&vec![0, 0], &vec![7, 0]]) {
                let case = Case::new(groups, limit, tags.clone());
                for room in [0, case.length() - 1, case.length()] {
                    tally.build(&case.text(), room);
                }
                let mut descending = case.clone();
                descending.tags.reverse();
                tally.build(&descending.text(), case.length());
            }
        }
    }
    // 10 at a higher group than one without a seed, and the other way round.
    let mut both = tags_of_group(1, 2, LARGEST_GROUP + 1);
    both.extend([0, 1_073_741_824, 3_221_225_472].map(|tag| tag + 2));
    both.sort_unstable();
    both.dedup();
    for groups in 1..=9 {
        let case = Case::new(groups, 3, both.clone());
        tally.build(&case.text(), case.length());
    }
}

/// 6 at every index, by an equal tag and by a lower one.
fn ascending(tally: &mut Tally, random: &mut Random) {
    tally.kind("not ascending");
    for count in [2, 3, 32, 100] {
        let tags = different(count, || random.tag());
        for index in 1..tags.len() {
            for lower in [tags[index - 1], tags[0], 0] {
                let mut case = Case::new(64, 9, tags.clone());
                case.tags[index] = lower;
                tally.build(&case.text(), case.length());
            }
        }
    }
    // The last index there can be.
    for first in [0, 1] {
        let mut case = Case::new(512, 9, (first..first + 4_096).collect::<Vec<_>>());
        case.tags[4_095] = case.tags[4_094];
        tally.build(&case.text(), case.length());
    }
}

/// No tags, one, 32 and 33 in a group, 4,096 and 4,097 in the list.
fn counts(tally: &mut Tally, random: &mut Random) {
    tally.kind("boundary counts");
    for groups in [1, 2, 7, 512] {
        for group in [0, groups / 2, groups - 1] {
            for count in [0, 1, 2, 24, 25, 31, 32, 33, 34] {
                let case = Case::new(groups, 65_536, tags_of_group(group, groups, count));
                rebuild(tally, random, &case);
            }
        }
    }
    // Two groups of 33: the lower one is named.
    let mut two = tags_of_group(3, 8, 33);
    two.extend(tags_of_group(5, 8, 33));
    two.sort_unstable();
    let case = Case::new(8, 65_536, two);
    tally.build(&case.text(), case.length());

    for count in [4_095, 4_096] {
        let mut case = large(random);
        case.groups = 512;
        while case.tags.len() < count {
            // Each new tag goes where there is room, so that the list can be built.
            let sizes = sizes(&case);
            let tag = random.tag();
            if sizes[group_of(tag, 512) as usize] < 12 {
                case.tags.extend((0..8).map(|step| tag.wrapping_add(step)));
                case.tags.sort_unstable();
                case.tags.dedup();
            }
        }
        case.tags.truncate(count);
        rebuild(tally, random, &case);
        let mut last = case.clone();
        last.tags[count - 1] = u32::MAX;
        rebuild(tally, random, &last);
    }
    for (first, count) in [
        (1, 4_096),
        (1, 4_097),
        (0, 4_096),
        (0, 4_097),
        (u32::MAX - 4_096, 4_097),
    ] {
        let tags: Vec<u32> = (0..count).map(|step| first + step).collect();
        let case = Case::new(512, 65_536, tags);
        rebuild(tally, random, &case);
    }
}

/// 4,096 tags in 128 groups of just 32 each; and with one tag moved to another group, which then has
/// 33: 10 at that group.
fn all_full(tally: &mut Tally, random: &mut Random) {
    tally.kind("128 groups of 32 tags");
    let mut tags = Vec::new();
    for group in 0..128 {
        tags.extend(different(LARGEST_GROUP, || {
            tag_of_group(random, group, 128)
        }));
    }
    tags.sort_unstable();
    let case = Case::new(128, 65_536, tags);
    rebuild(tally, random, &case);
    for group in [0, 1, 127] {
        let mut moved = case.clone();
        let lost = (group + 64) % 128;
        let index = moved
            .tags
            .iter()
            .position(|&tag| group_of(tag, 128) == lost);
        moved.tags.remove(index.expect("every group has tags"));
        moved.tags.push(tag_of_group(random, group, 128));
        moved.tags.sort_unstable();
        tally.build(&moved.text(), moved.length());
    }
}

fn sizes(case: &Case) -> Vec<usize> {
    let mut sizes = vec![0; case.groups as usize];
    for &tag in &case.tags {
        sizes[group_of(tag, case.groups) as usize] += 1;
    }
    sizes
}

/// No buffer, one byte short, just long enough, and longer.
fn buffers(tally: &mut Tally, random: &mut Random) {
    tally.kind("buffers");
    let mut cases = vec![
        Case::new(1, 1, []),
        Case::new(512, 1, []),
        Case::new(2, 9, [1, 2, 3]),
        Case::new(2, 9, [0, 1, 2, 3]),
        Case::new(4, 99, different(20, || random.tag())),
    ];
    cases.push(large(random));
    for case in cases {
        let (text, length) = (case.text(), case.length());
        let rooms = [
            0,
            1,
            10,
            11,
            length - 11,
            length - 1,
            length,
            length + 1,
            length + 11,
            50_699,
        ];
        for room in rooms {
            tally.build(&text, room);
        }
    }
}

/// Multiples of a high power of two, with and without a seed, and 7 at many groups.
fn without_seed(tally: &mut Tally, random: &mut Random, size: &Size) {
    tally.kind("groups without a seed");
    for limit in [1, 2, 999] {
        for shift in 26..31 {
            let multiples = (1u32 << (32 - shift)) - 1;
            for count in [multiples.min(32), multiples.min(31) - 1] {
                let tags: Vec<u32> = (1..=count).map(|k| k << shift).collect();
                let case = Case::new(1, limit, tags);
                tally.build(&case.text(), case.length());
            }
        }
        for tags in [&WITHOUT_PLACE_2[..], &FIVE_ON_FOUR_PLACES, &LAST_SEED] {
            let case = Case::new(1, limit, tags);
            tally.build(&case.text(), case.length());
        }
    }
    // All 65,536 seeds: the last one serves, or none does.
    for tags in [&LAST_SEED[..], &without_place_0(), &two_on_place_0()] {
        let case = Case::new(1, 65_536, tags);
        rebuild(tally, random, &case);
    }
    // Groups of one to four tags under few seeds: some of them stay without one.
    for _ in 0..20 * size.lists {
        let groups = random.within(1, 12) as u32;
        let count = random.within(1, 4 * groups as usize);
        let case = Case::new(
            groups,
            random.within(1, 3) as u32,
            different(count, || random.tag()),
        );
        tally.build(&case.text(), case.length());
    }
}
