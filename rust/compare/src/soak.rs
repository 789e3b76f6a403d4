//! One process that places groups and counts their parts, plans, writes, rebuilds and looks up for a given
//! time, with tags and without: every answer must be the model's, and the process must not grow.

use std::fs;
use std::time::{Duration, Instant};

use model::boundary::Cells;
use model::tagless::tagless_length;
use random::Random;
use tag_index::raw;

use crate::groups::{group, LAST_SEED, LOLLIPOP, PATH};
use crate::lists::{large, structured};
use crate::tally::differs;

/// The process may grow by so much after the first rounds: a few pages that the allocator or the
/// stack had not touched before. A leak of one byte a call is more within a second.
const ALLOWED_KIB: u64 = 256;

/// Rounds before the first look at the memory.
const WARM_UP: usize = 3;

/// One list, and all that the model says of it.
struct Expected {
    text: Vec<u8>,
    room: usize,
    built: u64,
    planned: u64,
    plan: Cells,
    /// The buffer after building; the image is its beginning.
    buffer: Vec<u8>,
    checked: u64,
    found: Vec<(u32, u64)>,
    /// One byte of the image changed, and what the model says then.
    damage: Option<Damage>,
    /// What the strict check says of the image as it is, and with that byte changed.
    strictly: [u64; 2],
    tagless: Tagless,
}

/// The same list without tags, and what the model says of it.
struct Tagless {
    built: u64,
    buffer: Vec<u8>,
    checked: u64,
    found: Vec<(u32, u64)>,
    damage: Option<Damage>,
}

struct Damage {
    at: usize,
    byte: u8,
    checked: u64,
    found: (u32, u64),
}

/// One group, and what the model says of it.
struct Group {
    tags: Vec<u32>,
    limit: u32,
    placed: u64,
    /// What the cell holds before, and afterwards.
    cell: u32,
    word: u32,
    /// Seeds, the one that placing found among them, and what counting parts answers for each.
    parts: [(u32, u64); 3],
}

pub fn run(seed: u64, time: Duration) -> bool {
    let mut random = Random::new(seed);
    let expected = expected(&mut random);
    let groups = groups(&mut random);
    let rooms = expected
        .iter()
        .map(|one| one.room.max(one.tagless.buffer.len()));
    let mut buffer = vec![0; rooms.max().unwrap_or(0)];
    let mut answers = 0;
    // From here on this side takes no memory: what grows is the library's.
    for _ in 0..WARM_UP {
        answers += round(&expected, &mut buffer) + place(&groups);
    }
    let before = resident_kib();
    let begun = Instant::now();
    let mut rounds = 0;
    while begun.elapsed() < time || rounds == 0 {
        answers += round(&expected, &mut buffer) + place(&groups);
        rounds += 1;
    }
    let after = resident_kib();
    println!(
        "soak: {rounds} rounds over {} lists and {} groups in {} s, {answers} answers, no difference",
        expected.len(),
        groups.len(),
        begun.elapsed().as_secs()
    );
    println!("soak: VmRSS {before} KiB after warm-up, {after} KiB at the end; {ALLOWED_KIB} KiB more are allowed");
    if after > before + ALLOWED_KIB {
        println!("soak: the process grew by {} KiB", after - before);
        return false;
    }
    true
}

fn expected(random: &mut Random) -> Vec<Expected> {
    let mut cases: Vec<_> = (0..8)
        .flat_map(|_| structured(random))
        .map(|(_, case)| case)
        .collect();
    cases.extend((0..4).map(|_| large(random)));
    cases
        .iter()
        .map(|case| {
            let text = case.text();
            let room = case.length();
            let mut buffer = vec![128; room];
            let built = model::answer_build(&text, &mut buffer);
            let mut plan = [0; 513];
            let planned = model::answer_plan(&text, &mut plan);
            let mut tags = case.tags.clone();
            tags.extend((0..20).map(|_| random.tag()));
            let found = tags
                .iter()
                .map(|&tag| (tag, model::answer_lookup(&buffer, tag)))
                .collect();
            let mut strictly = [model::answer_strict_check(&buffer); 2];
            let damage = (built >> 32 == 0).then(|| {
                let (at, byte, changed) = damaged(random, &buffer);
                let tag = tags[random.below(tags.len())];
                strictly[1] = model::answer_strict_check(&changed);
                Damage {
                    at,
                    byte,
                    checked: model::answer_check(&changed),
                    found: (tag, model::answer_lookup(&changed, tag)),
                }
            });
            Expected {
                checked: model::answer_check(&buffer),
                strictly,
                tagless: tagless(random, &text, case.groups, &tags),
                text,
                room,
                built,
                planned,
                plan,
                buffer,
                found,
                damage,
            }
        })
        .collect()
}

/// One byte of an image changed: where, to what, and the image then.
fn damaged(random: &mut Random, image: &[u8]) -> (usize, u8, Vec<u8>) {
    let (at, byte) = (random.below(image.len()), random.next_u64() as u8);
    let mut changed = image.to_vec();
    changed[at] = byte;
    (at, byte, changed)
}

/// What the model says of a list without tags.
fn tagless(random: &mut Random, text: &[u8], groups: u32, tags: &[u32]) -> Tagless {
    let mut buffer = vec![128; tagless_length(groups as usize)];
    let built = model::answer_tagless_build(text, &mut buffer);
    let found = tags
        .iter()
        .map(|&tag| (tag, model::answer_tagless_lookup(&buffer, tag)))
        .collect();
    let damage = (built >> 32 == 0).then(|| {
        let (at, byte, changed) = damaged(random, &buffer);
        let tag = tags[random.below(tags.len())];
        Damage {
            at,
            byte,
            checked: model::answer_tagless_check(&changed),
            found: (tag, model::answer_tagless_lookup(&changed, tag)),
        }
    });
    Tagless {
        built,
        checked: model::answer_tagless_check(&buffer),
        buffer,
        found,
        damage,
    }
}

/// Rebuilds every list once, plans and writes it, and asks for all its tags, with tags and without; the
/// number of answers.
fn round(expected: &[Expected], buffer: &mut [u8]) -> u64 {
    let mut answers = 0;
    for (index, one) in expected.iter().enumerate() {
        let mut hold = |answer: u64, model: u64, operation: &str| {
            answers += 1;
            if answer != model {
                differs(&format!(
                    "soak, {operation} of list {index}: {answer} instead of {model}"
                ));
            }
        };
        let image = &mut buffer[..one.room];
        image.fill(128);
        hold(raw::build(&one.text, image), one.built, "building");
        if image != one.buffer {
            differs(&format!(
                "soak, building of list {index}: other bytes in the buffer"
            ));
        }
        let mut plan = [u32::MAX; 513];
        hold(raw::plan(&one.text, &mut plan), one.planned, "planning");
        if plan != one.plan {
            differs(&format!("soak, planning of list {index}: another plan"));
        }
        // What planning refuses is not written: the plan's B is 0.
        let written = match one.planned >> 32 {
            0 => one.built,
            _ => 8 << 32,
        };
        image.fill(128);
        hold(raw::write(&one.text, &plan, image), written, "writing");
        if image != one.buffer {
            differs(&format!(
                "soak, writing of list {index}: other bytes in the buffer"
            ));
        }
        hold(raw::check(image), one.checked, "checking");
        hold(raw::strict_check(image), one.strictly[0], "strict check");
        for &(tag, found) in &one.found {
            hold(raw::lookup(image, tag), found, "lookup");
        }
        if let Some(damage) = &one.damage {
            image[damage.at] = damage.byte;
            hold(
                raw::check(image),
                damage.checked,
                "checking a damaged image",
            );
            hold(
                raw::strict_check(image),
                one.strictly[1],
                "strict check of a damaged image",
            );
            let (tag, found) = damage.found;
            hold(raw::lookup(image, tag), found, "lookup in a damaged image");
        }
        answers += round_without_tags(index, one, buffer);
    }
    answers
}

/// Builds one list without tags, and asks for all its tags; the number of answers.
fn round_without_tags(index: usize, one: &Expected, buffer: &mut [u8]) -> u64 {
    let Expected { text, tagless, .. } = one;
    let mut answers = 0;
    let mut hold = |answer: u64, model: u64, operation: &str| {
        answers += 1;
        if answer != model {
            differs(&format!(
                "soak, {operation} without tags of list {index}: {answer} instead of {model}"
            ));
        }
    };
    let image = &mut buffer[..tagless.buffer.len()];
    image.fill(128);
    hold(raw::tagless_build(text, image), tagless.built, "building");
    if image != tagless.buffer {
        differs(&format!(
            "soak, building without tags of list {index}: other bytes in the buffer"
        ));
    }
    hold(raw::tagless_check(image), tagless.checked, "checking");
    for &(tag, found) in &tagless.found {
        hold(raw::tagless_lookup(image, tag), found, "lookup");
    }
    if let Some(damage) = &tagless.damage {
        image[damage.at] = damage.byte;
        hold(
            raw::tagless_check(image),
            damage.checked,
            "checking a damaged image",
        );
        let (tag, found) = damage.found;
        hold(
            raw::tagless_lookup(image, tag),
            found,
            "lookup in a damaged image",
        );
    }
    answers
}

/// Groups of every size, under a limit that most of them need not reach, and chosen ones.
fn groups(random: &mut Random) -> Vec<Group> {
    let mut cases = vec![(LAST_SEED.to_vec(), 65_536), (LAST_SEED.to_vec(), 9)];
    cases.extend([PATH, LOLLIPOP].map(|tags| (tags.to_vec(), 1)));
    cases.push((PATH.to_vec(), 0));
    for n in 0..=33 {
        cases.extend(group(random, n).into_iter().map(|(_, tags)| (tags, 999)));
    }
    cases
        .into_iter()
        .map(|(tags, limit)| {
            let cell = random.next_u64() as u32;
            let mut word = [cell];
            let placed = model::answer_place(&tags, limit, &mut word);
            let seeds = [placed as u32, random.below(65_536) as u32, 65_536];
            let parts = seeds.map(|seed| (seed, model::answer_parts(&tags, seed)));
            Group {
                tags,
                limit,
                placed,
                cell,
                word: word[0],
                parts,
            }
        })
        .collect()
}

/// Places every group once, and counts its parts; the number of answers.
fn place(groups: &[Group]) -> u64 {
    let mut answers = 0;
    for (index, group) in groups.iter().enumerate() {
        let mut cell = [group.cell];
        let answer = raw::place_group(&group.tags, group.limit, &mut cell);
        if (answer, cell) != (group.placed, [group.word]) {
            differs(&format!(
                "soak, placing of group {index}: {answer} and {cell:?} instead of {} and {}",
                group.placed, group.word
            ));
        }
        for &(seed, expected) in &group.parts {
            let answer = raw::count_parts(&group.tags, seed);
            if answer != expected {
                differs(&format!(
                    "soak, counting parts of group {index}: {answer} instead of {expected}"
                ));
            }
        }
        answers += 1 + group.parts.len() as u64;
    }
    answers
}

/// The memory of this process that is in use now.
fn resident_kib() -> u64 {
    let status = fs::read_to_string("/proc/self/status").expect("/proc/self/status can be read");
    status
        .lines()
        .find_map(|line| line.strip_prefix("VmRSS:"))
        .and_then(|rest| rest.trim().strip_suffix("kB"))
        .and_then(|figure| figure.trim().parse().ok())
        .expect("VmRSS is a number of KiB")
}
