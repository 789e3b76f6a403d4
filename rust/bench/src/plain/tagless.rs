//! The index without tags in plain Rust: document 02, §5.
//!
//! A seed that its occupancy word does not drop is decided by equations over the bits of the group's
//! word, one for each place: it must be taken an odd number of times, and n tags then take n places once
//! each.

use super::{
    check_group_count, check_limit, check_tags, group_of, hashed, is_faulty, multipliers,
    occupancy, read_field, read_line_0, read_list, refuse, write_field, write_pair, Groups, List,
    Refusal, K, LARGEST_GROUP, LARGEST_SEED, LINE, UNKNOWN, UNWIRED,
};

/// The bytes of a group line: start, seed, word and a line feed.
const GROUP_LINE: usize = 21;

/// The image without tags of a list text at the beginning of `image`; answers its length.
pub fn build(text: &[u8], image: &mut [u8]) -> u64 {
    match try_build(text, image) {
        Ok(length) => length as u64,
        Err(refusal) => refusal.answer(),
    }
}

/// Answers 0 for an image without tags that is accepted.
pub fn check(image: &[u8]) -> u64 {
    match try_check(image) {
        Ok(()) => 0,
        Err(refusal) => refusal.answer(),
    }
}

/// Answers the number of a tag.
pub fn lookup(image: &[u8], tag: u32) -> u64 {
    match try_lookup(image, tag) {
        Ok(Some(number)) => number as u64,
        Ok(None) => UNKNOWN,
        Err(refusal) => refusal.answer(),
    }
}

// Words.

/// A tag's row is its product with this.
fn row_multiplier(seed: u32) -> u32 {
    (2 * seed + 1).wrapping_mul(K)
}

fn choice(seed: u32, word: u32, tag: u32) -> usize {
    let row = row_multiplier(seed).wrapping_mul(tag);
    (row & word).count_ones() as usize & 1
}

/// An equation over the bits of a word: the parity of the ones in `row AND word`.
#[derive(Clone, Copy)]
struct Equation {
    row: u32,
    parity: bool,
}

impl Equation {
    fn add(&mut self, other: Equation) {
        self.row ^= other.row;
        self.parity ^= other.parity;
    }
}

/// The least seed that has a word for a group, and the least word under it.
fn least_seed(tags: &[u32], limit: u32) -> Option<(u32, u32)> {
    for seed in 0..limit {
        if occupancy(tags, seed).count_ones() as usize != tags.len() {
            continue;
        }
        if let Some(word) = least_word(tags, seed) {
            return Some((seed, word));
        }
    }
    None
}

fn least_word(tags: &[u32], seed: u32) -> Option<u32> {
    let n = tags.len();
    let [first, second] = multipliers(seed);
    let row_multiplier = row_multiplier(seed);
    // No tag yet: each place has to be taken once more.
    let nothing = Equation {
        row: 0,
        parity: true,
    };
    let mut places = [nothing; LARGEST_GROUP];
    for &tag in tags {
        let row = row_multiplier.wrapping_mul(tag);
        // Its first place if the parity is 0, its second if it is 1; where they are one place, in any
        // case.
        places[hashed(first, n, tag)].add(Equation { row, parity: true });
        places[hashed(second, n, tag)].add(Equation { row, parity: false });
    }
    solve(&places[..n])
}

/// The least word that solves the equations. In each that is kept the lowest bit stands in no other, so
/// that with all other bits 0 these lowest bits are the parities.
fn solve(equations: &[Equation]) -> Option<u32> {
    let mut kept = [Equation {
        row: 0,
        parity: false,
    }; LARGEST_GROUP];
    let mut count = 0;
    for &(mut equation) in equations {
        for other in &kept[..count] {
            if equation.row & lowest(other.row) != 0 {
                equation.add(*other);
            }
        }
        if equation.row == 0 {
            if equation.parity {
                return None;
            }
            continue;
        }
        for other in &mut kept[..count] {
            if other.row & lowest(equation.row) != 0 {
                other.add(equation);
            }
        }
        kept[count] = equation;
        count += 1;
    }
    let odd = kept[..count].iter().filter(|equation| equation.parity);
    Some(odd.fold(0, |word, equation| word | lowest(equation.row)))
}

/// The lowest bit that is 1.
fn lowest(row: u32) -> u32 {
    row & row.wrapping_neg()
}

// Building.

fn image_length(groups: usize) -> usize {
    LINE + GROUP_LINE * groups
}

fn try_build(text: &[u8], image: &mut [u8]) -> Result<usize, Refusal> {
    let List {
        groups,
        limit,
        tags,
    } = read_list(text)?;
    check_group_count(groups)?;
    check_limit(limit)?;
    check_tags(&tags)?;
    let count = groups as usize;
    let Some(image) = image.get_mut(..image_length(count)) else {
        return refuse(9, 0);
    };
    let groups = Groups::new(&tags, count)?;
    // All seeds and words are known before the first byte is written.
    let mut words = Vec::with_capacity(count);
    for group in 0..count {
        match least_seed(&groups.tags[groups.range(group)], limit) {
            Some(found) => words.push(found),
            None => return refuse(7, group),
        }
    }
    let length = image.len();
    let (line_0, group_lines) = image.split_first_chunk_mut().expect("it has a line 0");
    write_pair(line_0, tags.len() as u32, count as u32);
    let (group_lines, _) = group_lines.as_chunks_mut::<GROUP_LINE>();
    for (line, (&start, &(seed, word))) in
        group_lines.iter_mut().zip(groups.starts.iter().zip(&words))
    {
        write_field(&mut line[..5], start as u32);
        write_field(&mut line[5..10], seed);
        write_field(&mut line[10..20], word);
        line[20] = b'\n';
    }
    Ok(length)
}

// Checking and lookup.

/// An image without tags whose length and line 0 are in order.
struct Image<'a> {
    lines: &'a [[u8; GROUP_LINE]],
    count: usize,
}

struct GroupLine {
    start: usize,
    seed: u32,
    word: u32,
}

fn open(bytes: &[u8]) -> Result<Image<'_>, Refusal> {
    let (count, groups) = read_line_0(bytes)?;
    if bytes.len() != image_length(groups) {
        return refuse(11, 0);
    }
    let (lines, _) = bytes[LINE..].as_chunks();
    Ok(Image { lines, count })
}

fn read_group_line(line: &[u8; GROUP_LINE]) -> Option<GroupLine> {
    if line[20] != b'\n' {
        return None;
    }
    let start = read_field(&line[..5])? as usize;
    let seed = read_field(&line[5..10])? as u32;
    let word = u32::try_from(read_field(&line[10..20])?).ok()?;
    (seed <= LARGEST_SEED).then_some(GroupLine { start, seed, word })
}

impl Image<'_> {
    fn group_line(&self, group: usize) -> Result<GroupLine, Refusal> {
        match read_group_line(&self.lines[group]) {
            Some(line) => Ok(line),
            None => refuse(12, 1 + group),
        }
    }
}

fn try_check(bytes: &[u8]) -> Result<(), Refusal> {
    let image = open(bytes)?;
    // A faulty group is reported only if no line is malformed.
    let mut faulty = None;
    let mut start = 0;
    for group in 0..image.lines.len() {
        let line = image.group_line(group)?;
        if group == 0 {
            if line.start != 0 {
                faulty = Some(0);
            }
        } else if is_faulty(group - 1, start, line.start) {
            faulty = faulty.or(Some(group - 1));
        }
        start = line.start;
    }
    let last = image.lines.len() - 1;
    if is_faulty(last, start, image.count) {
        faulty = faulty.or(Some(last));
    }
    match faulty {
        Some(group) => refuse(13, group),
        None => Ok(()),
    }
}

fn try_lookup(bytes: &[u8], tag: u32) -> Result<Option<usize>, Refusal> {
    let image = open(bytes)?;
    if tag == UNWIRED {
        return Ok(None);
    }
    let group = group_of(tag, image.lines.len());
    let GroupLine { start, seed, word } = image.group_line(group)?;
    let end = if group + 1 < image.lines.len() {
        image.group_line(group + 1)?.start
    } else {
        image.count
    };
    if is_faulty(group, start, end) || end > image.count {
        return refuse(13, group);
    }
    if start == end {
        return Ok(None);
    }
    let multiplier = multipliers(seed)[choice(seed, word, tag)];
    Ok(Some(start + hashed(multiplier, end - start, tag)))
}
