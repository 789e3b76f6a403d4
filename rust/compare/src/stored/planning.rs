//! The cases of `cases_planning`: plans as planning yields them, of other lists, and changed; each
//! refusal of planning and of writing, and which of two comes first; all lent cells and bytes.

use model::boundary::Cells;
use model::{plan_list, write_list, Plan};

use super::Output;
use crate::groups::LAST_SEED;
use crate::lists::{behind_0, tags_of_group};

pub fn write(output: &mut Output) {
    let many = [5; 4_097];
    // Group 0 has two tags that seed 0 does not serve, group 1 has 33, the last tag among them.
    let mut large = [&[4, 12][..], &tags_of_group(1, 2, 33)].concat();
    large.sort_unstable();
    in_turn(output);
    for (name, tags, groups, limit) in plans(&many) {
        planned(output, name, tags, groups, limit);
    }
    for (name, tags, groups, seeds) in small(&many) {
        written(output, name, tags, &plan(groups, &seeds), 77);
    }
    // 17 before 10, 10 before 7, and 7; 9 before 10.
    let name = "tag 0, and 33 tags in group 1";
    planned(output, name, &behind_0(&large), 2, 1);
    let name = "33 tags in group 1, group 0 without a seed";
    planned(output, name, &large, 2, 1);
    planned(output, "group 0 without a seed", &large[..34], 2, 1);
    let name = "33 tags in group 1, room for 4";
    written(output, name, &large, &plan(2, &[0, 0, 0]), 77);
    let cases: [(&str, &[u32], u32, [u32; 2]); 6] = [
        ("seed 65536, 33 tags in group 1", &large, 2, [0, 65_536]),
        ("33 tags in group 1", &large, 2, [0, 0]),
        ("neither served", &large[..34], 2, [0, 0]),
        ("group 1 not served", &large[..34], 2, [1, 0]),
        ("32 tags, seed 65535", &LAST_SEED, 1, [65_535, 0]),
        ("32 tags, seed 65534", &LAST_SEED, 1, [65_534, 0]),
    ];
    for (name, tags, groups, seeds) in cases {
        written(output, name, tags, &plan(groups, &seeds), 418);
    }
}

/// A plan of these seeds, and 4,294,967,295 behind them.
fn plan(groups: u32, seeds: &[u32]) -> Plan {
    let mut plan = Plan {
        groups,
        seeds: [u32::MAX; 512],
    };
    plan.seeds[..seeds.len()].copy_from_slice(seeds);
    plan
}

/// Plans, and answers the plan.
fn planned(output: &mut Output, name: &str, tags: &[u32], groups: u32, limit: u32) -> Plan {
    output.words(format!("{name}: "));
    let planned = plan_list(tags, groups, limit);
    match planned {
        Ok(plan) => output.words(plan.groups.to_string()),
        Err(refusal) => output.refusal(refusal),
    }
    let plan = planned.unwrap_or(Plan::REFUSED);
    let mut cells: Cells = [plan.groups; 513];
    cells[1..].copy_from_slice(&plan.seeds);
    output.words("\n ");
    output.numbers(&cells);
    output.words("\n");
    plan
}

/// Writes with a plan into a buffer of `room` bytes.
fn written(output: &mut Output, name: &str, tags: &[u32], plan: &Plan, room: usize) {
    let mut buffer = vec![b'#'; room];
    output.words(format!("{name}: "));
    match write_list(tags, plan, &mut buffer) {
        Ok(size) => output.words(size.to_string()),
        Err(refusal) => output.refusal(refusal),
    }
    output.words("\n");
    output.words(&buffer);
    output.words("\n");
}

fn in_turn(output: &mut Output) {
    let plan = planned(output, "whole case", &[1, 2, 3], 2, 9);
    for room in [65, 66, 70] {
        written(output, &format!("room {room}"), &[1, 2, 3], &plan, room);
    }
    let serves = "the plan serves 2, 4, 5 and 7";
    written(output, serves, &[2, 4, 5, 7], &plan, 77);
    let serves_not = "and not 2, 4, 9 and 11";
    written(output, serves_not, &[2, 4, 9, 11], &plan, 77);
    let refused = "refused over the plan of another list";
    let plan = planned(output, refused, &[1, 3, 4, 9, 12], 2, 2);
    written(output, "under the refused plan", &[1, 2, 3], &plan, 77);
}

/// Plans, and then each refusal of planning but 10 in the order written, of which several are due at
/// once.
fn plans(many: &[u32]) -> [(&'static str, &[u32], u32, u32); 11] {
    [
        ("seeds 1 and 2", &[1, 3, 4, 9, 12], 2, 3),
        ("no tags", &[], 3, 1),
        ("B = 512", &[1, 908, u32::MAX], 512, 1),
        ("B = 0", &[1, 2, 3], 0, 9),
        ("B = 513, L = 0", &[1, 2, 3], 513, 0),
        ("L = 0, 4097 tags", many, 2, 0),
        ("L = 65537", &[1, 2, 3], 2, 65_537),
        ("4097 equal tags", many, 2, 9),
        ("tag 5 twice, behind tag 0", &[0, 5, 5], 2, 9),
        ("tag 0", &[0, 1, 3], 2, 1),
        ("group 1 without a seed", &[1, 3, 4, 9, 12], 2, 2),
    ]
}

/// Writings into 77 bytes, with three seeds each.
fn small(many: &[u32]) -> [(&'static str, &[u32], u32, [u32; 3]); 29] {
    const HIGH: u32 = u32::MAX;
    [
        ("seeds 0 and 1", &[1, 2, 3], 2, [0, 1, HIGH]),
        ("seeds 65535 and 16", &[1, 2, 3], 2, [65_535, 16, 65_536]),
        ("seeds 65535 and 17", &[1, 2, 3], 2, [65_535, 17, 0]),
        ("seeds exchanged", &[1, 2, 3], 2, [1, 0, 0]),
        ("both groups served", &[1, 3, 4, 12], 2, [1, 1, 0]),
        ("group 0 not served", &[1, 3, 4, 12], 2, [0, 1, 0]),
        ("group 1 not served", &[1, 3, 4, 12], 2, [1, 0, 0]),
        ("neither served", &[1, 3, 4, 12], 2, [0, 0, 0]),
        ("tags with the same two places", &[599, 1_193], 1, [0, 0, 0]),
        (
            "fewest second places under a later seed",
            &[1, 2, 12],
            1,
            [11, 0, 0],
        ),
        ("no tags", &[], 3, [7, 65_535, 0]),
        ("one tag, and two empty groups", &[2], 3, [9, 8, 7]),
        ("two empty groups and one tag", &[13], 3, [1, 2, 3]),
        // Each refusal but 10, in the order written, of which several are due at once.
        ("B = 0, seed 65536", &[1, 2, 3], 0, [65_536, 1, 0]),
        ("B = 513, seed 65536", &[1, 2, 3], 513, [65_536, 1, 0]),
        ("B = 4294967295", &[1, 2, 3], u32::MAX, [0, 1, 0]),
        (
            "B = 512, seed 4294967295 in group 3",
            &[1, 2, 3],
            512,
            [0, 1, 0],
        ),
        ("seed 65536 in group 0", &[1, 2, 3], 2, [65_536, 1, 0]),
        ("seed 65536 in group 1", &[1, 2, 3], 2, [0, 65_536, 0]),
        ("seed 4294967295 in both", &[1, 2, 3], 2, [HIGH, HIGH, 0]),
        ("seed 65536 in an empty group", &[2], 3, [0, 0, 65_536]),
        ("seed 65536, 4097 tags", many, 2, [0, 65_536, 0]),
        ("4097 equal tags", many, 2, [0, 0, 0]),
        ("seed 65536, tag 5 twice", &[5, 5], 2, [0, 65_536, 0]),
        ("tag 5 twice", &[5, 5], 2, [0, 0, 0]),
        ("tag 5 twice, behind tag 0", &[0, 5, 5], 2, [0, 0, 0]),
        ("tag 0, room for 4 tags", &[0, 1, 2, 3, 4], 2, [0, 1, 0]),
        ("tag 0", &[0, 1, 2], 2, [0, 0, 0]),
        (
            "5 tags, room for 4, group 1 not served",
            &[1, 2, 3, 4, 9],
            2,
            [0, 0, 0],
        ),
    ]
}
