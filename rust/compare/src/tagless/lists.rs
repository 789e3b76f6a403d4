//! Lists for the index without tags: every refusal of building, several of them due at once, buffers,
//! texts, and lists of many groups.

use model::placing::LARGEST_GROUP;
use random::Random;

use crate::groups::two_on_place_0;
use crate::lists::{
    behind_0, close_numbered, different, full, large, overfull, structured, tag_of_group,
    tags_of_group, Case, FIVE_ON_FOUR_PLACES, WITHOUT_PLACE_2, WORKED,
};
use crate::plans::{faulty_tags, faulty_text, sets};
use crate::tally::{Operation, Tally};
use crate::texts::damaged;
use crate::Size;

use super::{build, group_lines, length, rebuild};

pub fn compare(tally: &mut Tally, random: &mut Random, size: &Size) {
    worked(tally, random);
    texts(tally, random, size);
    ranges(tally, random);
    for _ in 0..size.due {
        due_at_once(tally, random);
    }
    ascending(tally, random);
    counts(tally, random);
    buffers(tally, random);
    for _ in 0..size.many_groups {
        few_seeds(tally, random);
        for (kind, case) in structured(random) {
            tally.kind(kind);
            rebuild(tally, random, &case);
        }
        for (kind, case) in many_groups(random) {
            tally.kind(kind);
            rebuild(tally, random, &case);
        }
        tally.kind("one group of 33 and more");
        too_large(tally, random);
    }
    for _ in 0..size.all_full {
        tally.kind("128 groups of 32 tags");
        let tags = (0..128).flat_map(|group| {
            different(LARGEST_GROUP, || tag_of_group(random, group, 128)).into_iter()
        });
        let mut tags: Vec<u32> = tags.collect();
        tags.sort_unstable();
        rebuild(tally, random, &Case::new(128, 65_536, tags));
    }
}

/// The whole case of document 01 in every length of buffer, and the worked values and traps.
fn worked(tally: &mut Tally, random: &mut Random) {
    tally.kind("the whole case");
    let whole = Case::new(2, 9, [1, 2, 3]);
    for room in 0..70 {
        tally.tagless_build(&whole.text(), room);
    }
    rebuild(tally, random, &whole);
    tally.kind("worked values and traps");
    for &(limit, tags) in WORKED {
        rebuild(tally, random, &Case::new(1, limit, tags));
    }
}

/// Texts with every kind of fault, and each byte of a text set to all other values.
fn texts(tally: &mut Tally, random: &mut Random, size: &Size) {
    for (kind, text) in damaged(random) {
        tally.kind(kind);
        tally.tagless_build(&text, 10_763);
    }
    tally.kind("each byte of a text set to all other values");
    let text = Case::new(2, 9, [1, 2, 3]).text();
    let mut changed = text.clone();
    for at in 0..text.len() {
        for step in (1..256).step_by(size.byte_step) {
            changed[at] = text[at].wrapping_add(step as u8);
            tally.tagless_build(&changed, 53);
        }
        changed[at] = text[at];
    }
}

/// B and L at the ends of their ranges and beyond them, up to what a text can say; the empty list.
fn ranges(tally: &mut Tally, random: &mut Random) {
    tally.kind("ranges of B and L");
    for groups in [0, 1, 2, 511, 512, 513, 1_000, 65_536, 99_999] {
        for limit in [0, 1, 2, 65_535, 65_536, 65_537, 99_999] {
            for tags in [&[][..], &[1, 7, 70_001, u32::MAX], &[0, 7, 70_001], &[7]] {
                build(tally, random, &Case::new(groups, limit, tags));
            }
        }
    }
    tally.kind("empty lists");
    for groups in [1, 2, 3, 100, 511, 512] {
        rebuild(tally, random, &Case::new(groups, 1, []));
    }
}

/// A list of two to six groups, each with two to seven tags, one of which has a seed above 0; that seed,
/// which is the greatest, and another group.
fn base(random: &mut Random) -> (Case, u32, usize) {
    loop {
        let groups = random.within(2, 6) as u32;
        let mut tags = Vec::new();
        for group in 0..groups {
            let count = random.within(2, 7);
            tags.extend(different(count, || tag_of_group(random, group, groups)));
        }
        tags.sort_unstable();
        let case = Case::new(groups, 65_536, tags);
        let Ok(image) = model::tagless::image_of(&case.tags, groups, 65_536) else {
            continue;
        };
        let seeds: Vec<u32> = group_lines(&image).map(|line| line.seed).collect();
        let own = (0..seeds.len()).max_by_key(|&group| seeds[group]);
        let own = own.expect("there are groups");
        if seeds[own] > 0 {
            let other = (own + random.within(1, seeds.len() - 1)) % seeds.len();
            return (case, seeds[own], other);
        }
    }
}

/// All sets of refusals of building without tags due at once: the first in the order written decides.
fn due_at_once(tally: &mut Tally, random: &mut Random) {
    tally.kind("several conditions at once");
    let (case, greatest_seed, large) = base(random);
    for due in sets(Operation::TaglessBuilding.order()) {
        let mut faulty = case.clone();
        faulty.tags = faulty_tags(random, &case, &due, large);
        // The least limit that suffices for all groups, and one less.
        faulty.limit = greatest_seed + u32::from(!due.contains(&7));
        let exact = length(&faulty);
        if due.contains(&4) {
            faulty.limit = [0, 65_537, 99_999][random.below(if due.contains(&7) { 1 } else { 3 })];
        }
        if due.contains(&8) {
            faulty.groups = [0, 513, 99_999][random.below(3)];
        }
        let room = match due.contains(&9) {
            true => [0, 11, exact - 21, exact - 1][random.below(4)],
            false => exact,
        };
        let text = faulty_text(random, &faulty, &due);
        let (answer, _) = tally.tagless_build(&text, room);
        tally.due(Operation::TaglessBuilding, &due, answer);
    }
}

/// 6 at every index, by an equal tag, a lower one and 0.
fn ascending(tally: &mut Tally, random: &mut Random) {
    tally.kind("not ascending");
    for count in [2, 3, 32, 60] {
        let tags = different(count, || random.tag());
        for index in 1..tags.len() {
            for lower in [tags[index - 1], tags[0], 0] {
                let mut case = Case::new(64, 9, tags.clone());
                case.tags[index] = lower;
                build(tally, random, &case);
            }
        }
    }
    for first in [0, 1] {
        let mut case = Case::new(512, 9, (first..first + 4_096).collect::<Vec<_>>());
        case.tags[4_095] = case.tags[4_094];
        build(tally, random, &case);
    }
}

/// No tags, one, two, 31, 32 and 33 in a group; 4,096 and 4,097 in the list.
fn counts(tally: &mut Tally, random: &mut Random) {
    tally.kind("boundary counts");
    for groups in [1, 2, 7, 512] {
        for group in [0, groups / 2, groups - 1] {
            for count in [0, 1, 2, 24, 25, 31, 32, 33, 34] {
                let case = Case::new(groups, 65_536, tags_of_group(group, groups, count));
                rebuild(tally, random, &case);
            }
        }
    }
    // Two groups of 33: the lower one is named.
    for pair in [[3, 5], [0, 7], [6, 7]] {
        let mut two = pair.map(|group| tags_of_group(group, 8, 33)).concat();
        two.sort_unstable();
        build(tally, random, &Case::new(8, 65_536, two));
    }
    for (first, count) in [
        (1, 4_096),
        (1, 4_097),
        (0, 4_096),
        (0, 4_097),
        (u32::MAX - 4_095, 4_096),
    ] {
        let tags: Vec<u32> = (0..count).map(|step| first + step).collect();
        rebuild(tally, random, &Case::new(512, 65_536, tags));
    }
}

/// No buffer, shorter by a byte and by a line, just long enough, longer, and as long as the image with
/// the tags is. Where 10 or 7 is due too, 9 comes first.
fn buffers(tally: &mut Tally, random: &mut Random) {
    tally.kind("buffers");
    let cases = [
        Case::new(1, 1, []),
        Case::new(512, 1, []),
        Case::new(2, 9, [1, 2, 3]),
        Case::new(2, 9, [0, 1, 2, 3]),
        Case::new(4, 99, different(20, || random.tag())),
        Case::new(1, 1, [1, 3]),
        Case::new(2, 9, tags_of_group(1, 2, 33)),
        large(random),
    ];
    for case in cases {
        let (text, exact) = (case.text(), length(&case));
        for room in [
            0,
            1,
            10,
            11,
            exact - 21,
            exact - 1,
            exact,
            exact + 1,
            exact + 21,
            case.length(),
            10_763,
            50_699,
        ] {
            tally.tagless_build(&text, room);
        }
    }
}

/// Few tags in few groups under few seeds: 7 at each group.
fn few_seeds(tally: &mut Tally, random: &mut Random) {
    tally.kind("groups without a seed");
    for _ in 0..20 {
        let groups = random.within(1, 12) as u32;
        let count = random.within(1, 4 * groups as usize);
        let limit = random.within(1, 3) as u32;
        let case = Case::new(groups, limit, different(count, || random.tag()));
        let (answer, _) = build(tally, random, &case);
        if answer >> 32 == 7 {
            let exact = length(&case);
            tally.tagless_build(&case.text(), exact - 1);
        }
    }
    for tags in [
        &WITHOUT_PLACE_2[..],
        &FIVE_ON_FOUR_PLACES,
        &two_on_place_0(),
    ] {
        build(tally, random, &Case::new(1, 99, tags));
    }
}

/// 10 at the lower one of the groups with too many tags; with a byte less 9, and with tag 0 in front 17.
fn too_large(tally: &mut Tally, random: &mut Random) {
    let case = overfull(random);
    for tags in [behind_0(&case.tags), case.tags.clone()] {
        let case = Case::new(case.groups, case.limit, tags);
        for room in [length(&case), length(&case) - 1] {
            tally.tagless_build(&case.text(), room);
        }
    }
}

/// Lists of up to 4,096 tags in up to 512 groups: random, close-numbered and structured ones, with few
/// tags in a group and with many.
fn many_groups(random: &mut Random) -> Vec<(&'static str, Case)> {
    let mut cases = Vec::new();
    let mut add =
        |kind, groups, tags: Vec<u32>| cases.push((kind, Case::new(groups, 65_536, tags)));
    for (groups, count) in [(512, 4_096), (512, 2_048), (400, 4_096), (301, 4_096)] {
        add("random lists", groups, different(count, || random.tag()));
    }
    let first = random.tag().min(u32::MAX - 4_096);
    add("dense lists", 512, (first..first + 4_096).collect());
    let step = 1 + random.below(1 << 20) as u32;
    let even_steps = (1..=4_096).map_while(|multiple: u32| multiple.checked_mul(step));
    add("evenly spaced lists", 511, even_steps.collect());
    let shift = random.within(1, 16);
    let multiples = different(4_096, || (random.tag() >> shift) << shift);
    add("multiples of a power of two", 512, multiples);
    let centres: Vec<u32> = (0..random.within(1, 9)).map(|_| random.tag()).collect();
    let near = different(4_096, || {
        centres[random.below(centres.len())].wrapping_add(random.below(3_000) as u32)
    });
    add("clustered lists", 480, near);
    // Two parts that differ in the highest bits alone.
    let low = different(2_048, || random.tag() >> 3);
    let both = low.iter().flat_map(|&tag| [tag, tag | 1 << 31]);
    add(
        "pairs with the highest bit in one",
        512,
        different(4_096, {
            let mut both = both.collect::<Vec<u32>>().into_iter();
            move || both.next().unwrap_or(0)
        }),
    );
    cases.push(("full groups", full(random)));
    cases.push(("close-numbered lists", close_numbered(random)));
    cases.push(("large lists", large(random)));
    cases
}
