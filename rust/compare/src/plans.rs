//! Plans: planning over cells that hold anything, and writing with the plan of the list, with plans of
//! other lists, and with plans changed in every way. Every refusal of the two, and all sets of refusals
//! due at once, in building too.

use std::collections::BTreeSet;

use model::boundary::Cells;
use model::hash::group_of;
use model::image::image_length;
use model::placing::{serves, LARGEST_GROUP};
use random::Random;

use crate::groups::{
    filled_under, shaped, shapes, two_on_place_0, without_place_0, ALL_KINDS_OF_BITS,
    FEWEST_SECOND_PLACES, LAST_SEED, LOLLIPOP, PATH, PATH_TO_BE_MOVED_ALONG,
};
use crate::lists::{
    behind_0, different, full, large, overfull, structured, tag_of_group, tags_of_group, Case,
    FIVE_ON_FOUR_PLACES, WITHOUT_PLACE_2,
};
use crate::tally::{Operation, Tally};
use crate::texts::damaged;
use crate::Size;

pub fn compare(tally: &mut Tally, random: &mut Random, size: &Size) {
    whole_case(tally, random);
    texts(tally, random, size);
    ranges(tally, random, size);
    for _ in 0..size.due {
        due_in_writing(tally, random);
        due_in_planning(tally, random);
    }
    seeds_of_groups(tally, random, size);
    for _ in 0..size.seeds {
        one_group(tally, random);
        few_tags(tally, random);
    }
    let mut other = plan(&[0, 1]);
    for _ in 0..size.plans {
        for (kind, case) in structured(random) {
            tally.kind(kind);
            if let Some(plan) = plan_and_write(tally, random, &case) {
                changed(tally, random, &case, &plan);
                other_lists(tally, random, &case, &other);
                other = plan;
            }
        }
    }
    for _ in 0..size.plans {
        tally.kind("groups without a seed");
        for _ in 0..20 {
            let groups = random.within(1, 12) as u32;
            let count = random.within(1, 4 * groups as usize);
            let limit = random.within(1, 3) as u32;
            let case = Case::new(groups, limit, different(count, || random.tag()));
            tally.plan(&case.text(), &cells(random));
        }
        tally.kind("one group of 33 and more");
        let case = overfull(random);
        tally.plan(&case.text(), &cells(random));
        // 9 comes before 10, and 10 before 18.
        let mut plan = plan(&[0; 512]);
        plan[0] = case.groups;
        for room in [case.length() - 1, case.length()] {
            tally.write(&case.text(), &plan, room);
        }
    }
    for _ in 0..size.large_plans {
        for (kind, case) in [
            ("full groups", full(random)),
            ("large lists", large(random)),
        ] {
            tally.kind(kind);
            if let Some(plan) = plan_and_write(tally, random, &case) {
                exchanged(tally, random, &case, &plan);
                off_by_one(tally, random, &case, &plan);
                other_lists(tally, random, &case, &other);
                other = plan;
            }
        }
    }
}

/// The plan of these seeds, B as many as there are.
pub fn plan(seeds: &[u32]) -> Cells {
    let mut cells = [0; 513];
    cells[0] = seeds.len() as u32;
    cells[1..=seeds.len()].copy_from_slice(seeds);
    cells
}

/// What the cells hold before planning: anything.
fn cells(random: &mut Random) -> Cells {
    match random.below(4) {
        0 => [u32::MAX; 513],
        1 => plan(&[7; 512]),
        _ => [0; 513].map(|_| random.next_u64() as u32),
    }
}

/// A seed, 0 to 65,535.
fn seed(random: &mut Random) -> u32 {
    random.below(65_536) as u32
}

/// The length of the image of so many tags under a plan, if its B is legal.
fn length(plan: &Cells, tags: usize) -> usize {
    image_length(plan[0].min(512) as usize, tags)
}

/// Writes with a plan into a buffer that is just long enough, or a little longer.
fn write(tally: &mut Tally, random: &mut Random, case: &Case, plan: &Cells) -> u64 {
    let room = length(plan, case.tags.len()) + random.below(3);
    tally.write(&case.text(), plan, room)
}

/// Plans, and writes with the plan as it was yielded into buffers of several lengths; the plan, if there
/// is one.
fn plan_and_write(tally: &mut Tally, random: &mut Random, case: &Case) -> Option<Cells> {
    let text = case.text();
    let (answer, plan) = tally.plan(&text, &cells(random));
    let exact = case.length();
    for room in [exact + random.below(3), exact - 1] {
        tally.in_turn(&text, room);
    }
    if answer >> 32 != 0 {
        // The plan is refused, and its B is 0.
        assert_eq!(tally.write(&text, &plan, exact) >> 32, 8);
        return None;
    }
    for (room, expected) in [
        (0, 9 << 32),
        (exact - 11, 9 << 32),
        (exact - 1, 9 << 32),
        (exact, exact as u64),
        (exact + 1, exact as u64),
        (exact + random.below(60), exact as u64),
    ] {
        assert_eq!(tally.write(&text, &plan, room), expected);
    }
    Some(plan)
}

/// The whole case of document 01, with each seed of its plan and others, and in each length of buffer.
fn whole_case(tally: &mut Tally, random: &mut Random) {
    tally.kind("the whole case");
    let case = Case::new(2, 9, [1, 2, 3]);
    plan_and_write(tally, random, &case);
    for room in 0..80 {
        tally.write(&case.text(), &plan(&[0, 1]), room);
    }
    for first in [0, 1, 2, 65_535, 65_536] {
        for second in 0..40 {
            write(tally, random, &case, &plan(&[first, second]));
        }
    }
    // B and L of the text have to be well formed, and mean nothing in writing.
    tally.kind("B and L of the text");
    for groups in [0, 1, 2, 3, 512, 513, 99_999] {
        for limit in [0, 1, 2, 65_536, 65_537, 99_999] {
            let text = Case::new(groups, limit, [1, 2, 3]).text();
            for plan in [plan(&[0, 1]), plan(&[0, 0]), plan(&[5]), plan(&[9; 512])] {
                tally.write(&text, &plan, length(&plan, 3));
            }
        }
    }
}

/// Texts with every kind of fault, and each byte of a text set to all other values: a text that reading
/// refuses leaves a plan of zeros.
fn texts(tally: &mut Tally, random: &mut Random, size: &Size) {
    for (kind, text) in damaged(random) {
        tally.kind(kind);
        tally.plan(&text, &cells(random));
        let plans = [plan(&[0, 1]), plan(&[3, 65_536]), plan(&[])];
        tally.write(&text, &plans[random.below(3)], 5_700);
    }
    tally.kind("each byte of a text set to all other values");
    let text = Case::new(2, 9, [1, 2, 3]).text();
    let (before, plan) = (cells(random), plan(&[0, 1]));
    let mut changed = text.clone();
    for at in 0..text.len() {
        for step in (1..256).step_by(size.byte_step) {
            changed[at] = text[at].wrapping_add(step as u8);
            tally.plan(&changed, &before);
            tally.write(&changed, &plan, 66);
        }
        changed[at] = text[at];
    }
}

/// B and L of planning, and B of a plan, at the ends of their ranges and beyond them; a seed above 65,535
/// at every place there is, inside the first B groups and behind them.
fn ranges(tally: &mut Tally, random: &mut Random, size: &Size) {
    tally.kind("ranges of B and L");
    for groups in [0, 1, 2, 511, 512, 513, 1_000, 65_536, 99_999] {
        for limit in [0, 1, 2, 65_535, 65_536, 65_537, 99_999] {
            for first in [0, 1] {
                let case = Case::new(groups, limit, [first, 7, 70_001, u32::MAX]);
                tally.plan(&case.text(), &cells(random));
                tally.in_turn(&case.text(), case.length());
            }
        }
    }
    tally.kind("ranges of B in a plan");
    let tags = different(9, || random.tag());
    let lists = [vec![], tags.clone(), vec![5, 5], behind_0(&tags)];
    for groups in [0, 1, 2, 511, 512, 513, 514, 65_536, 1 << 31, u32::MAX] {
        for tags in &lists {
            for seeds in [[0; 512], [65_535; 512], [65_536; 512], [u32::MAX; 512]] {
                let mut plan = plan(&seeds);
                plan[0] = groups;
                let text = Case::new(1, 1, tags.clone()).text();
                let exact = length(&plan, tags.len());
                for room in [0, exact - 1, exact] {
                    tally.write(&text, &plan, room);
                }
            }
        }
    }
    tally.kind("a seed above 65535 at each place");
    let text = Case::new(1, 1, []).text();
    for groups in [1, 2, 171, 511, 512] {
        for place in (0..512).step_by(size.byte_step) {
            for high in [65_535, 65_536, u32::MAX] {
                let mut plan = plan(&[3; 512]);
                plan[0] = groups;
                plan[1 + place] = high;
                // Of two the lower one is named.
                plan[1 + place.max(511 - place)] = high;
                tally.write(&text, &plan, length(&plan, 0));
            }
        }
    }
}

/// A plan changed in every way, for the list that it was made for.
fn changed(tally: &mut Tally, random: &mut Random, case: &Case, plan: &Cells) {
    let groups = case.groups as usize;
    let text = case.text();
    tally.kind("other B in the plan");
    for other in [0, 1, groups - 1, groups + 1, 512, 513, 99_999, 1 << 32] {
        let mut plan = *plan;
        plan[0] = u32::try_from(other).unwrap_or(u32::MAX);
        write(tally, random, case, &plan);
    }
    off_by_one(tally, random, case, plan);
    exchanged(tally, random, case, plan);

    tally.kind("seeds at the end of their range and above");
    for high in [65_535, 65_536, u32::MAX] {
        for group in [0, groups - 1, random.below(groups)] {
            let mut plan = *plan;
            plan[1 + group] = high;
            write(tally, random, case, &plan);
        }
        // Two of them: the lower one is named.
        let mut plan = *plan;
        plan[1 + random.below(groups)] = high;
        plan[1 + random.below(groups)] = high;
        tally.write(&text, &plan, random.below(case.length()));
    }
    tally.kind("anything behind the last group");
    let mut behind = *plan;
    for cell in &mut behind[1 + groups..] {
        *cell = [65_535, 65_536, u32::MAX, random.next_u64() as u32][random.below(4)];
    }
    assert_eq!(write(tally, random, case, &behind) >> 32, 0);

    tally.kind("seeds in empty groups");
    let occupied: BTreeSet<u32> = case
        .tags
        .iter()
        .map(|&tag| group_of(tag, case.groups))
        .collect();
    let mut seeded = *plan;
    for group in (0..groups).filter(|&group| !occupied.contains(&(group as u32))) {
        seeded[1 + group] = seed(random);
    }
    assert_eq!(write(tally, random, case, &seeded) >> 32, 0);

    tally.kind("any seeds");
    for below in [2, 99, 65_536] {
        let mut drawn = *plan;
        for cell in &mut drawn[1..=groups] {
            *cell = random.below(below) as u32;
        }
        write(tally, random, case, &drawn);
        tally.write(&text, &drawn, case.length() - 1);
    }
}

/// One more and one less in the seed of a group that has tags, of the first and of the last.
fn off_by_one(tally: &mut Tally, random: &mut Random, case: &Case, plan: &Cells) {
    tally.kind("a seed off by one");
    let groups = case.groups as usize;
    let mut chosen = vec![0, groups - 1];
    if !case.tags.is_empty() {
        let tag = case.tags[random.below(case.tags.len())];
        chosen.push(group_of(tag, case.groups) as usize);
    }
    for group in chosen {
        for step in [1, u32::MAX] {
            let mut plan = *plan;
            plan[1 + group] = plan[1 + group].wrapping_add(step);
            write(tally, random, case, &plan);
        }
    }
}

/// The seeds of two groups exchanged, and all seeds moved to the next group.
fn exchanged(tally: &mut Tally, random: &mut Random, case: &Case, plan: &Cells) {
    tally.kind("seeds exchanged");
    let groups = case.groups as usize;
    for (first, second) in [
        (0, groups - 1),
        (random.below(groups), random.below(groups)),
    ] {
        let mut plan = *plan;
        plan.swap(1 + first, 1 + second);
        write(tally, random, case, &plan);
    }
    let mut moved = *plan;
    moved[1..=groups].rotate_right(1);
    write(tally, random, case, &moved);
}

/// Writes with the plan of another list, as it is and under this list's B.
fn other_lists(tally: &mut Tally, random: &mut Random, case: &Case, other: &Cells) {
    tally.kind("plans of other lists");
    write(tally, random, case, other);
    let mut plan = *other;
    plan[0] = case.groups;
    write(tally, random, case, &plan);
}

/// Groups of 0, 1, 2, 31, 32 and 33 tags at several places, with the seed that planning finds and others;
/// and the chosen groups of 32 tags.
fn seeds_of_groups(tally: &mut Tally, random: &mut Random, size: &Size) {
    tally.kind("groups of 0, 1, 2, 31, 32 and 33 tags");
    for groups in [1, 3, 512] {
        for group in [0, groups / 2, groups - 1] {
            for count in [0, 1, 2, 31, 32, 33] {
                let case = Case::new(groups, 65_536, tags_of_group(group, groups, count));
                let made = plan_and_write(tally, random, &case);
                let mut cells = made.unwrap_or(plan(&vec![0; groups as usize]));
                let cell = 1 + group as usize;
                let found = cells[cell];
                for seed in [found + 1, found.wrapping_sub(1), 0, 65_535, seed(random)] {
                    cells[cell] = seed;
                    write(tally, random, &case, &cells);
                }
            }
        }
    }
    tally.kind("chosen groups under many seeds");
    let without_place_0 = without_place_0();
    let two_on_place_0 = two_on_place_0();
    for tags in [
        &PATH[..],
        &PATH_TO_BE_MOVED_ALONG,
        &LOLLIPOP,
        &ALL_KINDS_OF_BITS,
        &FEWEST_SECOND_PLACES,
        &LAST_SEED,
        &without_place_0,
        &two_on_place_0,
        &WITHOUT_PLACE_2,
        &FIVE_ON_FOUR_PLACES,
        &[599, 1_193],
        &[1, 2, 12],
        &[1, 3],
    ] {
        let case = Case::new(1, 1, tags);
        for seed in (0..20).chain([65_534, 65_535, 65_536, u32::MAX, seed(random)]) {
            write(tally, random, &case, &plan(&[seed]));
        }
    }
    for n in (0..=LARGEST_GROUP).step_by(size.byte_step.min(8)) {
        for (kind, keys) in shapes(random, n) {
            tally.kind(kind);
            let (seed, tags) = shaped(random, &keys);
            write(tally, random, &Case::new(1, 1, tags), &plan(&[seed]));
        }
    }
}

/// A group of each size that is filled under a given seed: written under it, though lower seeds may
/// serve it too; under others mostly refused.
fn one_group(tally: &mut Tally, random: &mut Random) {
    tally.kind("groups made for a seed");
    for n in 0..=LARGEST_GROUP {
        for made_for in [0, 65_535, seed(random)] {
            let case = Case::new(1, 1, filled_under(random, n, made_for));
            let answer = write(tally, random, &case, &plan(&[made_for]));
            assert_eq!(answer, case.length() as u64);
            for other in [made_for ^ 1, seed(random)] {
                write(tally, random, &case, &plan(&[other]));
            }
        }
    }
}

/// Few tags in few groups under any seeds, which serve about as often as not: 18 at each group.
fn few_tags(tally: &mut Tally, random: &mut Random) {
    tally.kind("few tags under any seeds");
    for _ in 0..100 {
        let groups = random.within(1, 9) as u32;
        let count = random.below(3 * groups as usize);
        let case = Case::new(groups, 1, different(count, || random.tag()));
        let seeds: Vec<u32> = (0..groups).map(|_| seed(random)).collect();
        write(tally, random, &case, &plan(&seeds));
    }
}

/// All sets of these refusals, each in the order given.
pub fn all_sets(order: &[u32]) -> impl Iterator<Item = Vec<u32>> + '_ {
    (0..1u32 << order.len()).map(|set| {
        let chosen = (0..order.len()).filter(move |&at| set >> at & 1 == 1);
        chosen.map(|at| order[at]).collect()
    })
}

/// All sets of these refusals; with 5, which takes a list of more than 4,096 tags, only small ones.
pub fn sets(order: &[u32]) -> Vec<Vec<u32>> {
    all_sets(order)
        .filter(|due| !due.contains(&5) || due.len() <= 2)
        .collect()
}

/// A list of two to six groups, each with two to seven tags, that has a plan with a seed above 0; the
/// group of the greatest seed, and another one.
fn base(random: &mut Random) -> (Case, Cells, usize, usize) {
    loop {
        let groups = random.within(2, 6) as u32;
        let mut tags = Vec::new();
        for group in 0..groups {
            let count = random.within(2, 7);
            tags.extend(different(count, || tag_of_group(random, group, groups)));
        }
        tags.sort_unstable();
        let case = Case::new(groups, 65_536, tags);
        let mut cells = [0; 513];
        model::answer_plan(&case.text(), &mut cells);
        let seeds = &cells[1..=groups as usize];
        let own = (0..seeds.len()).max_by_key(|&group| seeds[group]);
        let own = own.expect("there are groups");
        if seeds[own] > 0 {
            let other = (own + random.within(1, seeds.len() - 1)) % seeds.len();
            return (case, cells, own, other);
        }
    }
}

/// The tags with what makes these refusals due: `large` is the group that has 33 tags where 10 is.
pub fn faulty_tags(random: &mut Random, case: &Case, due: &[u32], large: usize) -> Vec<u32> {
    let mut tags = case.tags.clone();
    if due.contains(&10) {
        let count = LARGEST_GROUP + 1;
        tags.extend(different(count, || {
            tag_of_group(random, large as u32, case.groups)
        }));
    }
    if due.contains(&5) {
        tags.extend(different(4_097, || random.tag()));
    }
    tags.sort_unstable();
    tags.dedup();
    if due.contains(&17) {
        tags = behind_0(&tags);
    }
    if due.contains(&6) {
        let index = random.within(1, tags.len() - 1);
        tags[index] = tags[random.below(index)];
        // Equal to the one before it, or lower.
        tags[index] = tags[index].min(tags[index - 1]);
    }
    tags
}

/// The text, with one line malformed where 16 is due.
pub fn faulty_text(random: &mut Random, case: &Case, due: &[u32]) -> Vec<u8> {
    let mut text = case.text();
    if due.contains(&16) {
        let line = random.below(text.len() / 11);
        text[11 * line + 9] = b'x';
    }
    text
}

/// All sets of refusals of writing due at once: the first in the order written decides.
fn due_in_writing(tally: &mut Tally, random: &mut Random) {
    tally.kind("several conditions at once");
    let (case, plan, own, large) = base(random);
    let part: Vec<u32> = case
        .tags
        .iter()
        .copied()
        .filter(|&tag| group_of(tag, case.groups) as usize == own)
        .collect();
    for due in sets(Operation::Writing.order()) {
        let mut plan = plan;
        let faulty = Case::new(
            case.groups,
            case.limit,
            faulty_tags(random, &case, &due, large),
        );
        if due.contains(&18) {
            while serves(&part, plan[1 + own]) {
                plan[1 + own] = seed(random);
            }
        }
        if due.contains(&2) {
            let groups = case.groups as usize;
            let high = [65_536, u32::MAX][random.below(2)];
            // Not where 18 is due, so that both are.
            plan[1 + (own + random.within(1, groups - 1)) % groups] = high;
        }
        let exact = faulty.length();
        if due.contains(&8) {
            plan[0] = [0, 513, u32::MAX][random.below(3)];
        }
        let room = match due.contains(&9) {
            true => [0, 11, exact - 1][random.below(3)],
            false => exact,
        };
        let text = faulty_text(random, &faulty, &due);
        let answer = tally.write(&text, &plan, room);
        tally.due(Operation::Writing, &due, answer);
    }
}

/// The same of planning, and of building, which has 9 behind it.
fn due_in_planning(tally: &mut Tally, random: &mut Random) {
    tally.kind("several conditions at once");
    let (case, plan, own, large) = base(random);
    for due in sets(Operation::Building.order()) {
        let mut faulty = case.clone();
        faulty.tags = faulty_tags(random, &case, &due, large);
        // The least limit that suffices for all groups, and one less.
        faulty.limit = plan[1 + own] + u32::from(!due.contains(&7));
        let exact = faulty.length();
        if due.contains(&4) {
            faulty.limit = [0, 65_537, 99_999][random.below(if due.contains(&7) { 1 } else { 3 })];
        }
        if due.contains(&8) {
            faulty.groups = [0, 513, 99_999][random.below(3)];
        }
        let room = match due.contains(&9) {
            true => [0, 11, exact - 1][random.below(3)],
            false => exact,
        };
        let text = faulty_text(random, &faulty, &due);
        let answer = tally.build(&text, room);
        tally.due(Operation::Building, &due, answer);
        tally.in_turn(&text, room);
        if !due.contains(&9) {
            let (answer, _) = tally.plan(&text, &cells(random));
            tally.due(Operation::Planning, &due, answer);
        }
    }
}
