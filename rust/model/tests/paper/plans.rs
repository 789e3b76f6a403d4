//! Planning, writing with any plan, and building as the two in turn.

use crate::common::{
    fills, lowest_tag_first, places, refusal, tags_of_group, tags_of_groups, taken_by_brute_force,
    with_line, WHOLE_CASE_IMAGE, WHOLE_CASE_TEXT, WITHOUT_PLACE_2,
};
use model::hash::{group_of, place_of};
use model::image::image_length;
use model::line::{line_of_tag, line_of_two};
use model::placing::{first_not_ascending, limit_is_legal, serves, word_taken};
use model::{
    answer_plan, answer_write, build, check, image_of, list_text, place_group, plan_list,
    write_list, Plan, Refusal,
};
use random::Random;

/// A plan of these seeds, and zeros behind them.
fn plan_of(seeds: &[u32]) -> Plan {
    let mut plan = Plan::REFUSED;
    plan.groups = seeds.len() as u32;
    plan.seeds[..seeds.len()].copy_from_slice(seeds);
    plan
}

/// Writes into a buffer that every image fits.
fn written(tags: &[u32], plan: &Plan) -> Result<Vec<u8>, Refusal> {
    let mut buffer = vec![0xA5; 60_000];
    let answer = write_list(tags, plan, &mut buffer);
    let length = answer.unwrap_or(0);
    assert!(buffer[length..].iter().all(|&byte| byte == 0xA5));
    answer.map(|length| buffer[..length].to_vec())
}

#[test]
fn a_plan_has_b_and_a_seed_for_each_group_and_zeros_behind() {
    assert_eq!(plan_list(&[1, 2, 3], 2, 9), Ok(plan_of(&[0, 1])));
    // Empty groups have seed 0.
    assert_eq!(plan_list(&[], 512, 1), Ok(plan_of(&[0; 512])));
    assert_eq!(plan_list(&[1, 3], 1, 2), Ok(plan_of(&[1])));
    let tags = Random::new(21).tags(900);
    let plan = plan_list(&tags, 100, 65_536).unwrap();
    assert_eq!(plan.groups, 100);
    for (group, &seed) in plan.seeds.iter().enumerate() {
        let part: Vec<u32> = tags
            .iter()
            .copied()
            .filter(|&tag| group_of(tag, 100) as usize == group)
            .collect();
        assert_eq!(
            place_group(&part, 65_536).map(|(least, _)| least),
            Ok(seed),
            "{group}"
        );
    }
    assert!(plan.seeds[..100].iter().any(|&seed| seed > 9));
    assert_eq!(plan.seeds[100..], [0; 412]);
}

#[test]
fn planning_refuses_with_8_then_4_then_5_then_6_then_17_then_10_then_7() {
    let equal = vec![5; 4_097];
    let zeros = vec![0; 4_096];
    for groups in [0, 513, u32::MAX] {
        assert_eq!(plan_list(&equal, groups, 0), Err(refusal(8, 0)));
    }
    for limit in [0, 65_537, u32::MAX] {
        assert_eq!(plan_list(&equal, 512, limit), Err(refusal(4, 0)));
    }
    assert_eq!(plan_list(&equal, 1, 1), Err(refusal(5, 0)));
    assert_eq!(plan_list(&zeros, 1, 1), Err(refusal(6, 1)));
    let from_0: Vec<u32> = (0..4_096).collect();
    assert_eq!(plan_list(&from_0, 1, 1), Err(refusal(17, 0)));
    let mut tags = [tags_of_group(0, 2, 32), tags_of_group(1, 2, 33)].concat();
    tags.sort_unstable();
    assert_eq!(plan_list(&tags, 2, 1), Err(refusal(10, 1)));
    assert_eq!(plan_list(&WITHOUT_PLACE_2, 1, 65_536), Err(refusal(7, 0)));
}

#[test]
fn writing_refuses_with_8_then_2_then_5_then_6_then_17_then_9_then_10_then_18() {
    let equal = vec![5; 4_097];
    let zeros = vec![0; 4_096];
    let from_0: Vec<u32> = (0..4_096).collect();
    let high = plan_of(&[0, 0, 65_536, u32::MAX]);
    for groups in [0, 513, u32::MAX] {
        let plan = Plan { groups, ..high };
        assert_eq!(write_list(&equal, &plan, &mut []), Err(refusal(8, 0)));
    }
    assert_eq!(write_list(&equal, &high, &mut []), Err(refusal(2, 2)));
    let legal = plan_of(&[0, 65_535]);
    assert_eq!(write_list(&equal, &legal, &mut []), Err(refusal(5, 0)));
    assert_eq!(write_list(&zeros, &legal, &mut []), Err(refusal(6, 1)));
    assert_eq!(write_list(&from_0, &legal, &mut []), Err(refusal(17, 0)));

    // Group 0 is not served by seed 0, group 1 has 33 tags.
    let mut tags = [tags_of_group(0, 2, 32), tags_of_group(1, 2, 33)].concat();
    tags.sort_unstable();
    let length = 11 * (1 + 2 + 65);
    let mut short = vec![0xA5; length - 1];
    assert_eq!(write_list(&tags, &legal, &mut short), Err(refusal(9, 0)));
    assert_eq!(written(&tags, &legal), Err(refusal(10, 1)));
    let last_of_group_1 = *tags_of_group(1, 2, 33).last().unwrap();
    tags.retain(|&tag| tag != last_of_group_1);
    assert_eq!(written(&tags, &legal), Err(refusal(18, 0)));
}

#[test]
fn refusal_2_names_the_lowest_of_the_first_b_groups() {
    for group in [0, 1, 255, 510, 511] {
        for seed in [65_536, 1 << 31, u32::MAX] {
            let mut plan = plan_of(&[7; 512]);
            plan.seeds[group] = seed;
            plan.seeds[511] = u32::MAX;
            assert_eq!(written(&[1], &plan), Err(refusal(2, group as u64)));
            // From place B on nothing is looked at.
            plan.groups = group.max(1) as u32;
            plan.seeds[0] = 7;
            assert_eq!(written(&[], &plan).map(|image| image.len()), {
                Ok(11 * (1 + plan.groups as usize))
            });
        }
    }
}

#[test]
fn refusal_18_is_decided_under_the_one_seed_at_the_lowest_group() {
    // Under seed 0 both places of 1 and of 3 are the same; seed 1 serves them, seed 2 does not.
    let serving: Vec<bool> = (0..4).map(|seed| serves(&[1, 3], seed)).collect();
    assert_eq!(serving[..2], [false, true]);
    for (seed, serves) in serving.into_iter().enumerate() {
        let answer = written(&[1, 3], &plan_of(&[seed as u32]));
        assert_eq!(answer.is_ok(), serves);
        if !serves {
            assert_eq!(answer, Err(refusal(18, 0)));
        }
    }
    // 32 tags of each group, which seed 0 does not serve; one tag always is.
    let list = |parts: &[(u32, usize)]| tags_of_groups(parts, 5);
    let zeros = plan_of(&[0; 5]);
    for group in [0, 2, 4] {
        let tags = list(&[(1, 1), (3, 0), (group, 32)]);
        assert_eq!(written(&tags, &zeros), Err(refusal(18, u64::from(group))));
    }
    let tags = list(&[(0, 1), (2, 32), (3, 32)]);
    assert_eq!(written(&tags, &zeros), Err(refusal(18, 2)));
    let mut plan = plan_list(&tags, 5, 65_536).unwrap();
    plan.seeds[2] = 0;
    assert_eq!(written(&tags, &plan), Err(refusal(18, 2)));
}

#[test]
fn an_empty_group_is_written_with_the_plans_seed() {
    assert_eq!(
        written(&[], &plan_of(&[7, 65_535, 0])).unwrap(),
        b"    0    3\n    0    7\n    065535\n    0    0\n"
    );
    // Tag 2 falls in group 0.
    assert_eq!(
        written(&[2], &plan_of(&[9, 8, 7])).unwrap(),
        b"    1    3\n    0    9\n    1    8\n    1    7\n         2\n"
    );
}

#[test]
fn the_sequence_taken_under_the_plans_seed_is_written_though_a_lower_seed_serves() {
    let mut random = Random::new(22);
    // Written under another seed than the least, and not as the lowest tag alone would decide.
    let mut unlike_the_order_before = 0;
    for _ in 0..200 {
        let count = 1 + random.below(9);
        let tags = random.tags(count);
        let seeds: Vec<u32> = (0..4_000)
            .filter(|&seed| serves(&tags, seed))
            .take(4)
            .collect();
        for (rank, seed) in seeds.into_iter().enumerate() {
            let image = written(&tags, &plan_of(&[seed])).unwrap();
            assert_eq!(check(&image), Ok(()));
            assert_eq!(image[11..22], line_of_two(0, u64::from(seed)));
            let word = taken_by_brute_force(&places(&tags, seed)).unwrap();
            assert_eq!(word_taken(&tags, seed), Some(word));
            for (index, &tag) in tags.iter().enumerate() {
                let place = place_of(count as u32, seed, word >> index & 1, tag) as usize;
                assert_eq!(image[11 * (2 + place)..11 * (3 + place)], line_of_tag(tag));
            }
            let mut before = lowest_tag_first(count).into_iter();
            let before = before.find(|&word| fills(&tags, seed, word));
            unlike_the_order_before += u32::from(rank > 0 && before != Some(word));
        }
    }
    assert!(unlike_the_order_before > 20, "{unlike_the_order_before}");
}

#[test]
fn a_plan_of_another_list_serves_or_is_refused_with_18() {
    let mut random = Random::new(23);
    let (mut accepted, mut refused) = (0, 0);
    for _ in 0..300 {
        let groups = 1 + random.below(6) as u32;
        let [count, other] = [(); 2].map(|_| 1 + random.below(3 * groups as usize));
        let plan = plan_list(&random.tags(other), groups, 65_536).unwrap();
        match written(&random.tags(count), &plan) {
            Ok(image) => {
                assert_eq!(check(&image), Ok(()));
                accepted += 1;
            }
            Err(refusal) => {
                assert_eq!(refusal.number, 18);
                refused += 1;
            }
        }
    }
    assert!(accepted > 50 && refused > 50, "{accepted} {refused}");
}

/// Building in one call, as in document 01: "8 [..] 4 [..] 5 [..] 6 [..] 9: buffer shorter than the
/// image. 10 [..] 7 [..] Otherwise the image stands at the buffer's beginning and the answer is its
/// length", with 17 "directly after 6" (document 02, §1).
fn build_in_one_call(
    tags: &[u32],
    groups: u32,
    limit: u32,
    buffer: &mut [u8],
) -> Result<usize, Refusal> {
    if !(1..=512).contains(&groups) {
        return Err(refusal(8, 0));
    }
    if !limit_is_legal(limit) {
        return Err(refusal(4, 0));
    }
    if tags.len() > 4_096 {
        return Err(refusal(5, 0));
    }
    if let Some(index) = first_not_ascending(tags) {
        return Err(refusal(6, index as u64));
    }
    if tags.first() == Some(&0) {
        return Err(refusal(17, 0));
    }
    let length = image_length(groups as usize, tags.len());
    if buffer.len() < length {
        return Err(refusal(9, 0));
    }
    let mut members = vec![Vec::new(); groups as usize];
    for &tag in tags {
        members[group_of(tag, groups) as usize].push(tag);
    }
    if let Some(group) = members.iter().position(|part| part.len() > 32) {
        return Err(refusal(10, group as u64));
    }
    let mut placed = Vec::new();
    for (group, part) in members.iter().enumerate() {
        placed.push(place_group(part, limit).map_err(|_| refusal(7, group as u64))?);
    }

    buffer[..11].copy_from_slice(&line_of_two(tags.len() as u64, u64::from(groups)));
    let mut start = 0;
    for (group, (part, &(seed, word))) in members.iter().zip(&placed).enumerate() {
        let at = 11 * (1 + group);
        buffer[at..at + 11].copy_from_slice(&line_of_two(start as u64, u64::from(seed)));
        for (index, &tag) in part.iter().enumerate() {
            let place = place_of(part.len() as u32, seed, word >> index & 1, tag) as usize;
            let at = 11 * (1 + groups as usize + start + place);
            buffer[at..at + 11].copy_from_slice(&line_of_tag(tag));
        }
        start += part.len();
    }
    Ok(length)
}

/// "For every list, B, L and buffer, writing after planning leaves what building left". "Where both 9
/// and 10 or 7 would be due, planning's is met first."
#[test]
fn the_two_calls_leave_what_one_call_leaves_and_answer_the_same_but_for_9_beside_10_and_7() {
    let mut random = Random::new(24);
    let mut lists: Vec<Vec<u32>> = vec![
        vec![],
        vec![5, 5],
        vec![0, 3],
        vec![1, 2, 3],
        WITHOUT_PLACE_2.to_vec(),
        tags_of_group(1, 2, 33),
        (1..=4_097).collect(),
    ];
    lists.extend((0..300).map(|_| {
        let count = random.below(60);
        random.tags(count)
    }));
    let mut otherwise = 0;
    let mut answers = [0; 20];
    for tags in lists {
        let groups = [0, 1, 2, 3, 7, 64, 512, 513][random.below(8)];
        for groups in [groups, 2, 9] {
            for limit in [0, 1, 2, 40, 65_537] {
                let length = image_length(groups as usize, tags.len());
                for room in [0, length - 1, length, length + 5] {
                    let mut one = vec![0xA5; room];
                    let mut two = one.clone();
                    let in_one_call = build_in_one_call(&tags, groups, limit, &mut one);
                    let in_two_calls = build(&tags, groups, limit, &mut two);
                    assert_eq!(one, two);
                    answers[in_two_calls.map_or_else(|refusal| refusal.number, |_| 0) as usize] +=
                        1;
                    if in_one_call == in_two_calls {
                        continue;
                    }
                    otherwise += 1;
                    assert_eq!(in_one_call, Err(refusal(9, 0)));
                    // In a buffer that is long enough it is the same refusal.
                    let number = in_two_calls.unwrap_err().number;
                    assert!(number == 10 || number == 7);
                    let mut long = vec![0; length];
                    assert_eq!(
                        in_two_calls,
                        build_in_one_call(&tags, groups, limit, &mut long)
                    );
                }
            }
        }
    }
    assert!(otherwise > 100, "{otherwise}");
    for number in [0, 8, 4, 5, 6, 17, 10, 7, 9] {
        assert!(answers[number] > 0, "{number}");
    }
}

#[test]
fn writing_after_planning_refuses_with_9_or_not_at_all() {
    let mut random = Random::new(25);
    for _ in 0..200 {
        let groups = 1 + random.below(40) as u32;
        let count = random.below(8 * groups as usize);
        let tags = random.tags(count);
        let Ok(plan) = plan_list(&tags, groups, 65_536) else {
            continue;
        };
        let length = image_length(groups as usize, tags.len());
        let mut buffer = vec![0xA5; length];
        assert_eq!(
            write_list(&tags, &plan, &mut buffer[..length - 1]),
            Err(refusal(9, 0))
        );
        assert!(buffer.iter().all(|&byte| byte == 0xA5));
        assert_eq!(write_list(&tags, &plan, &mut buffer), Ok(length));
        assert_eq!(Ok(buffer), image_of(&tags, groups, 65_536));
    }
}

#[test]
fn the_planning_call_answers_b_and_leaves_the_plan_or_zeros() {
    let mut cells = [u32::MAX; 513];
    assert_eq!(answer_plan(WHOLE_CASE_TEXT, &mut cells), 2);
    assert_eq!(cells[..3], [2, 0, 1]);
    assert_eq!(cells[3..], [0; 510]);
    let texts = [
        (b"".to_vec(), 16 << 32),
        (vec![b' '; 65_528], 5 << 32),
        (
            with_line(WHOLE_CASE_TEXT, 2, b"        02\n"),
            (16 << 32) + 2,
        ),
        (list_text(513, 0, &[5, 5]), 8 << 32),
        (list_text(512, 0, &[5, 5]), 4 << 32),
        (list_text(512, 1, &vec![5; 4_097]), 5 << 32),
        (list_text(512, 1, &[5, 5]), (6 << 32) + 1),
        (list_text(512, 1, &[0, 5]), 17 << 32),
        (list_text(2, 1, &tags_of_group(1, 2, 33)), (10 << 32) + 1),
        (list_text(2, 1, &[1, 2, 3]), (7 << 32) + 1),
    ];
    for (text, answer) in texts {
        let mut cells = [u32::MAX; 513];
        assert_eq!(answer_plan(&text, &mut cells), answer);
        assert_eq!(cells, [0; 513]);
    }
}

#[test]
fn the_writing_call_takes_the_tags_of_the_text_and_neither_its_b_nor_its_l() {
    let mut cells = [0; 513];
    answer_plan(WHOLE_CASE_TEXT, &mut cells);
    // Behind place B stands anything.
    cells[3] = u32::MAX;
    for (groups, limit) in [(2, 9), (0, 0), (99_999, 99_999), (1, 1)] {
        let text = list_text(groups, limit, &[1, 2, 3]);
        let mut image = [0xA5; 70];
        assert_eq!(
            answer_write(&text, &cells, &mut image[..65]),
            9 << 32,
            "{groups}"
        );
        assert_eq!(image, [0xA5; 70]);
        assert_eq!(answer_write(&text, &cells, &mut image), 66, "{groups}");
        assert_eq!(image[..66], *WHOLE_CASE_IMAGE);
        assert_eq!(image[66..], [0xA5; 4]);
    }
    // Reading's refusals come before writing's; B and L have to be well formed.
    cells[0] = 0;
    let mut image = [0xA5; 66];
    for (text, answer) in [
        (vec![b' '; 65_528], 5 << 32),
        (with_line(WHOLE_CASE_TEXT, 0, b"   02    9\n"), 16 << 32),
        (
            with_line(WHOLE_CASE_TEXT, 3, b"          \n"),
            (16 << 32) + 3,
        ),
        (WHOLE_CASE_TEXT.to_vec(), 8 << 32),
    ] {
        assert_eq!(answer_write(&text, &cells, &mut image), answer);
    }
    cells[0] = 3;
    assert_eq!(
        answer_write(WHOLE_CASE_TEXT, &cells, &mut image),
        (2 << 32) + 2
    );
    cells[0] = 2;
    cells[2] = 0;
    assert_eq!(
        answer_write(WHOLE_CASE_TEXT, &cells, &mut image),
        (18 << 32) + 1
    );
    assert_eq!(image, [0xA5; 66]);
}
