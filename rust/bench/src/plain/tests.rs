//! The plain version held against the model: every operation, on whole and damaged texts.

use super::{
    build, check, count_parts, lookup, place_group, plan, print, serves, serves_by_eviction,
    serves_by_parts, serves_by_parts_unless_dropped, strict_check, tagless, write, LARGEST_GROUP,
    PLAN_CELLS,
};
use model::{
    answer_build, answer_check, answer_lookup, answer_parts, answer_plan, answer_strict_check,
    answer_tagless_build, answer_tagless_check, answer_tagless_lookup, answer_write, list_text,
};
use random::Random;

/// Builds with both versions in a buffer of `room` bytes; answers the image.
fn built(text: &[u8], room: usize) -> Option<Vec<u8>> {
    let (mut plain, mut stated) = (vec![b'.'; room], vec![b'.'; room]);
    let answer = build(text, &mut plain);
    assert_eq!(
        answer,
        answer_build(text, &mut stated),
        "{}",
        String::from_utf8_lossy(text)
    );
    assert_eq!(plain, stated);
    assert_eq!(print(text), model::print_index(text));
    (answer >> 32 == 0).then(|| plain[..answer as usize].to_vec())
}

/// Plans with both versions; answers the plan, zeros if it is refused.
fn planned(text: &[u8]) -> [u32; PLAN_CELLS] {
    let (mut plain, mut stated) = ([9; PLAN_CELLS], [8; PLAN_CELLS]);
    assert_eq!(
        plan(text, &mut plain),
        answer_plan(text, &mut stated),
        "{}",
        String::from_utf8_lossy(text)
    );
    assert_eq!(plain, stated);
    plain
}

/// Writes with both versions in a buffer of `room` bytes; answers what they answer.
fn written(text: &[u8], plan: &[u32; PLAN_CELLS], room: usize) -> u64 {
    let (mut plain, mut stated) = (vec![b'.'; room], vec![b'.'; room]);
    let answer = write(text, plan, &mut plain);
    assert_eq!(
        answer,
        answer_write(text, plan, &mut stated),
        "{}",
        String::from_utf8_lossy(text)
    );
    assert_eq!(plain, stated);
    if answer >> 32 == 0 {
        // Under other seeds than the least, 19 comes.
        let image = &plain[..answer as usize];
        assert_eq!(strict_check(image), answer_strict_check(image));
    }
    answer
}

fn checked_and_looked_up(image: &[u8], tags: &[u32]) {
    assert_eq!(check(image), answer_check(image));
    assert_eq!(strict_check(image), answer_strict_check(image));
    for &tag in tags {
        assert_eq!(lookup(image, tag), answer_lookup(image, tag));
    }
}

/// Places a group with both versions.
fn placed(tags: &[u32], limit: u32) {
    const BEFORE: u32 = 9;
    let mut word = [BEFORE];
    let answer = place_group(tags, limit, &mut word);
    let stated = match model::place_group(tags, limit) {
        Ok((seed, word)) => (seed.into(), [word]),
        Err(refusal) => ((u64::from(refusal.number) << 32) + refusal.place, [BEFORE]),
    };
    assert_eq!((answer, word), stated, "{tags:?}");
}

fn all_operations(random: &mut Random, groups: u32, limit: u32, tags: &[u32]) {
    if groups == 1 {
        placed(tags, limit);
    }
    let text = list_text(groups, limit, tags);
    let length = 11 * (1 + groups as usize + tags.len());
    let mut plan = planned(&text);
    written(&text, &plan, length);
    written(&text, &plan, length - 1);
    // Other seeds: they may serve.
    for _ in 0..3 {
        plan[0] = groups;
        plan[1 + random.below(groups as usize)] = random.below(9) as u32;
        written(&text, &plan, length);
    }
    let Some(image) = built(&text, length + random.below(3)) else {
        return;
    };
    built(&text, length - 1);
    let mut queries = tags.to_vec();
    queries.extend([0, u32::MAX, random.tag(), random.tag()]);
    checked_and_looked_up(&image, &queries);
}

#[test]
fn random_lists() {
    let mut random = Random::new(1);
    for _ in 0..300 {
        let groups = [1, 1, 2, 3, 8, 17, 64, 511, 512][random.below(9)];
        let limit = [1, 2, 9, 99, 65_536][random.below(5)];
        let most = (13 * groups as usize).min(200);
        let count = random.below(most + 1);
        let tags = random.tags(count);
        all_operations(&mut random, groups, limit, &tags);
    }
}

#[test]
fn groups_of_every_size() {
    let mut random = Random::new(2);
    for count in 0..=LARGEST_GROUP + 1 {
        for limit in [3, 65_536] {
            let tags = random.tags(count);
            all_operations(&mut random, 1, limit, &tags);
            let stride = 1 << random.below(27);
            let tags: Vec<u32> = (1..=count as u32).map(|step| step * stride).collect();
            all_operations(&mut random, 1, limit.min(999), &tags);
            // The same, from tag 0 on.
            let tags: Vec<u32> = (0..count as u32).map(|step| step * stride).collect();
            all_operations(&mut random, 1, limit.min(999), &tags);
        }
    }
}

/// Groups that have several filling sequences under a seed, and under others: the one that is taken.
#[test]
fn small_groups_under_many_seeds() {
    let mut random = Random::new(9);
    let mut served = 0;
    for _ in 0..3_000 {
        let count = 2 + random.below(9);
        let tags = match random.below(3) {
            0 => random.multiples(count, 1 << 26),
            1 => (1 + random.below(999) as u32..).take(count).collect(),
            _ => random.tags(count),
        };
        placed(&tags, 65_536);
        let text = list_text(1, 1, &tags);
        let mut plan = [0; PLAN_CELLS];
        plan[0] = 1;
        for seed in 0..20 {
            plan[1] = seed;
            let answer = written(&text, &plan, 11 * (2 + count));
            served += u32::from(answer >> 32 == 0);
        }
    }
    assert!(served > 9_000, "{served}");
}

/// Counts parts with both versions, and tests the seed in every way; whether it serves.
fn tested(tags: &[u32], seed: u32) -> bool {
    let answer = count_parts(tags, seed);
    assert_eq!(answer, answer_parts(tags, seed), "{tags:?} under {seed}");
    let serving = answer >> 32 == 0 && answer % 2 == 1;
    if answer >> 32 == 0 {
        for test in [
            serves,
            serves_by_eviction,
            serves_by_parts,
            serves_by_parts_unless_dropped,
        ] {
            assert_eq!(test(tags, seed), serving, "{tags:?} under {seed}");
        }
    }
    serving
}

#[test]
fn parts_of_groups_of_every_size() {
    let mut random = Random::new(10);
    let mut served = 0;
    for count in 0..=LARGEST_GROUP + 1 {
        for _ in 0..60 {
            let tags = match random.below(3) {
                0 => random.multiples(count, 1 << 20),
                1 => (1 + random.below(999) as u32..).take(count).collect(),
                _ => random.tags(count),
            };
            for seed in (0..20).chain([65_534, 65_535, 65_536, u32::MAX]) {
                served += u32::from(tested(&tags, seed));
            }
        }
        let tags = random.tags(count);
        if let Ok((seed, _)) = model::place_group(&tags, 65_536) {
            assert!(tested(&tags, seed));
        }
    }
    assert!(served > 3_000, "{served}");
    for tags in [
        &[0][..],
        &[0, 0],
        &[0, 7, 7],
        &[5, 5],
        &[1, 9, 8, 7],
        &[5; 33],
        &[0; 33],
    ] {
        for seed in [0, 65_535, 65_536] {
            tested(tags, seed);
        }
    }
}

#[test]
fn many_tags() {
    let mut random = Random::new(3);
    let tags = random.tags(4_096);
    all_operations(&mut random, 512, 65_536, &tags);
    for count in [4_097, 5_000, 5_957] {
        let tags = random.tags(count);
        let text = list_text(512, 9, &tags);
        built(&text, 60_000);
        written(&text, &planned(&text), 60_000);
    }
}

#[test]
fn ranges_and_order() {
    for groups in [0, 1, 2, 512, 513, 99_999] {
        for limit in [0, 1, 2, 65_536, 65_537, 99_999] {
            for tags in [
                vec![],
                vec![1, 3],
                vec![5, 5],
                vec![1, 2, 9, 8, 7],
                [1, 2, 3, 5, 7].map(|multiple| multiple << 29).to_vec(),
                (1..=LARGEST_GROUP as u32 + 1).collect(),
                // Tag 0: alone, with 6, with 7 and with 10.
                vec![0],
                vec![0, 0],
                vec![0, 7, 7],
                vec![0, 1_073_741_824, 3_221_225_472],
                (0..=LARGEST_GROUP as u32).collect(),
            ] {
                placed(&tags, limit);
                let text = list_text(groups, limit, &tags);
                let mut plan = planned(&text);
                plan[0] = groups;
                for room in [0, 32, 33, 44, 60_000] {
                    built(&text, room);
                    written(&text, &plan, room);
                    let mut no_seed = plan;
                    no_seed[2] = 65_536;
                    written(&text, &no_seed, room);
                }
            }
        }
    }
}

#[test]
fn plans_of_other_lists() {
    let mut random = Random::new(5);
    let mut met = [0; 19];
    for _ in 0..2_000 {
        let groups = [1, 2, 3, 8, 17][random.below(5)];
        let counts = [(); 2].map(|()| random.below(4 * groups as usize));
        let [day, shift] = counts.map(|count| random.tags(count));
        let mut plan = planned(&list_text(groups, 65_536, &day));
        match random.below(9) {
            0 => plan[0] = [0, 512, 513, u32::MAX][random.below(4)],
            1 => plan[1 + random.below(20)] = [65_535, 65_536, u32::MAX][random.below(3)],
            2 => plan[0] += 1,
            _ => {}
        }
        let mut text = list_text(99_999, 0, &shift);
        if random.below(20) == 0 {
            let at = random.below(text.len());
            text[at] = b'x';
        }
        let room = 11 * (1 + plan[0].min(512) as usize + shift.len());
        let answer = written(&text, &plan, room - usize::from(random.below(20) == 0));
        met[(answer >> 32) as usize] += 1;
    }
    for number in [0, 2, 8, 9, 16, 18] {
        assert!(met[number] > 9, "{number}: {met:?}");
    }
}

/// Texts and images with one or two bytes changed, cut off or repeated.
#[test]
fn damaged_texts() {
    let mut random = Random::new(4);
    let bytes = b" 0123456789\n/:-";
    for round in 0..20_000 {
        let groups = 1 + random.below(4) as u32;
        let count = random.below(12);
        let mut tags = random.tags(count);
        if round % 2 == 0 {
            let first = u32::from(round % 16 != 0);
            tags = (first..first + count as u32).collect();
        }
        let mut text = list_text(groups, 99, &tags);
        let mut image = vec![0; 11 * (1 + groups as usize + count)];
        let answer = build(&text, &mut image);
        for damaged in [&mut text, &mut image] {
            for _ in 0..1 + random.below(2) {
                let at = random.below(damaged.len());
                match random.below(9) {
                    0 => damaged.truncate(at + 1),
                    // Tag 0 in some line.
                    8 if at / 11 * 11 + 11 <= damaged.len() => {
                        damaged[at / 11 * 11..][..11].copy_from_slice(b"         0\n");
                    }
                    1 => {
                        // One line over another: groups at fault, misplaced and repeated tags.
                        let from = random.below(damaged.len() / 11 + 1) * 11;
                        let to = at / 11 * 11;
                        if from.max(to) + 11 <= damaged.len() {
                            damaged.copy_within(from..from + 11, to);
                        }
                    }
                    _ => damaged[at] = bytes[random.below(bytes.len())],
                }
            }
        }
        built(&text, 200);
        written(&text, &planned(&text), 200);
        if answer >> 32 == 0 {
            tags.push(0);
            checked_and_looked_up(&image, &tags);
        }
    }
}

/// Builds without tags with both versions in a buffer of `room` bytes; answers the image.
fn built_without_tags(text: &[u8], room: usize) -> Option<Vec<u8>> {
    let (mut plain, mut stated) = (vec![b'.'; room], vec![b'.'; room]);
    let answer = tagless::build(text, &mut plain);
    assert_eq!(
        answer,
        answer_tagless_build(text, &mut stated),
        "{}",
        String::from_utf8_lossy(text)
    );
    assert_eq!(plain, stated);
    (answer >> 32 == 0).then(|| plain[..answer as usize].to_vec())
}

fn checked_and_looked_up_without_tags(image: &[u8], tags: &[u32]) {
    assert_eq!(tagless::check(image), answer_tagless_check(image));
    for &tag in tags {
        assert_eq!(
            tagless::lookup(image, tag),
            answer_tagless_lookup(image, tag)
        );
    }
}

#[test]
fn lists_without_tags() {
    let mut random = Random::new(6);
    for round in 0..600 {
        let groups = [1, 1, 2, 3, 8, 17, 64, 511, 512][random.below(9)];
        let limit = [1, 2, 9, 99, 65_536][random.below(5)];
        let most = (13 * groups as usize).min(200);
        let count = random.below(most + 1);
        let step = 1 << random.below(20);
        let tags = match round % 3 {
            0 => random.multiples(count, step),
            1 => (round..round + count as u32).collect(),
            _ => random.tags(count),
        };
        let text = list_text(groups, limit, &tags);
        let length = 11 + 21 * groups as usize;
        built_without_tags(&text, length - 1);
        if let Some(image) = built_without_tags(&text, length + random.below(3)) {
            let mut queries = tags;
            queries.extend([0, u32::MAX, random.tag(), random.tag()]);
            checked_and_looked_up_without_tags(&image, &queries);
        }
    }
}

#[test]
fn groups_of_every_size_without_tags() {
    let mut random = Random::new(7);
    for count in 0..=LARGEST_GROUP + 1 {
        for limit in [3, 2_000] {
            let stride = 1 << random.below(27);
            let multiples = (1..=count as u32).map(|step| step * stride);
            for tags in [random.tags(count), multiples.collect()] {
                let text = list_text(1, limit, &tags);
                built_without_tags(&text, 32);
            }
        }
    }
}

#[test]
fn ranges_and_order_without_tags() {
    for groups in [0, 1, 2, 512, 513, 99_999] {
        for limit in [0, 1, 2, 65_536, 65_537, 99_999] {
            for tags in [
                vec![],
                vec![1, 3],
                vec![5, 5],
                vec![19, 24, 43],
                [2, 4, 5, 7].map(|multiple| multiple << 29).to_vec(),
                (1..=LARGEST_GROUP as u32 + 1).collect(),
                vec![0],
                vec![0, 7, 7],
                (0..=LARGEST_GROUP as u32).collect(),
            ] {
                let text = list_text(groups, limit, &tags);
                for room in [0, 31, 32, 53, 60_000] {
                    built_without_tags(&text, room);
                }
            }
        }
    }
}

/// Texts and images without tags, with bytes changed, cut off or lines repeated.
#[test]
fn damaged_texts_without_tags() {
    let mut random = Random::new(8);
    let bytes = b" 0123456789\n/:-";
    for _ in 0..20_000 {
        let groups = 1 + random.below(4) as u32;
        let count = random.below(12);
        let mut tags = random.tags(count);
        let mut text = list_text(groups, 99, &tags);
        let built = built_without_tags(&text, 95);
        let at = random.below(text.len());
        text[at] = bytes[random.below(bytes.len())];
        built_without_tags(&text, 95);
        let Some(mut image) = built else {
            continue;
        };
        for _ in 0..1 + random.below(2) {
            let at = random.below(image.len());
            match random.below(9) {
                0 => image.truncate(at + 1),
                1 if image.len() == 11 + 21 * groups as usize => {
                    // One line over another: groups at fault.
                    let [from, to] = [(); 2].map(|()| 11 + 21 * random.below(groups as usize));
                    image.copy_within(from..from + 21, to);
                }
                _ => image[at] = bytes[random.below(bytes.len())],
            }
        }
        tags.extend([0, random.tag(), random.tag()]);
        checked_and_looked_up_without_tags(&image, &tags);
    }
}
