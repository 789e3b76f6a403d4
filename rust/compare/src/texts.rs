//! List texts, whole and damaged: each byte changed, every cut, lines that are not figures, and
//! lengths up to the longest text and beyond it.

use random::Random;

use crate::lists::{structured, Case};
use crate::tally::Tally;
use crate::Size;

/// Lines of eleven bytes of which the rules admit few: each stands for every later line once.
pub const LINES: [&[u8; 11]; 27] = [
    b"         7\n",
    b"         0\n",
    b"4294967295\n",
    b"4294967296\n",
    b"9999999999\n",
    b"    2    9\n",
    b"        07\n",
    b"0000000007\n",
    b"0000000000\n",
    b"7         \n",
    b"       7  \n",
    b"      7 7 \n",
    b"        7 \n",
    b"          \n",
    b"        +7\n",
    b"        -7\n",
    b"        -0\n",
    b"\t        7\n",
    b"        \t7\n",
    b"         7\r",
    b"        7\r\n",
    b"         7\0",
    b"         7 ",
    b"       7.0\n",
    b"       0x7\n",
    b"\n\n\n\n\n\n\n\n\n\n\n",
    b"\xff\xff\xff\xff\xff\xff\xff\xff\xff\xff\n",
];

/// First lines: of B and L, well formed or not.
pub const HEADERS: [&[u8; 11]; 22] = [
    b"    1    1\n",
    b"    2    9\n",
    b"  51265536\n",
    b"    0    0\n",
    b"9999999999\n",
    b"    265536\n",
    b"    265537\n",
    b"  513    1\n",
    b"00002    9\n",
    b"   02    9\n",
    b"    2   09\n",
    b"2        9\n",
    b"    29    \n",
    b"    2     \n",
    b"         9\n",
    b"    2\t   9\n",
    b"   +2    9\n",
    b"    2   -9\n",
    b"    2    9\r",
    b"    2    9 ",
    b"   2    9\r\n",
    b"     2   9\n",
];

/// Texts with every kind of fault, also for the printer.
pub fn damaged(random: &mut Random) -> Vec<(&'static str, Vec<u8>)> {
    let mut texts = Vec::new();
    let whole = Case::new(2, 9, [1, 2, 3]).text();
    for header in HEADERS {
        let mut text = whole.clone();
        text[..11].copy_from_slice(header);
        texts.push(("first lines", text));
        texts.push(("first lines", header.to_vec()));
    }
    for line in LINES {
        for index in 1..4 {
            let mut text = whole.clone();
            text[11 * index..11 * (index + 1)].copy_from_slice(line);
            texts.push(("later lines", text));
        }
    }
    // Two malformed lines: the first is named.
    for (first, second) in [(1, 2), (2, 3), (1, 3), (0, 3)] {
        let mut text = whole.clone();
        text[11 * first + 9] = b'x';
        text[11 * second + 10] = b'\r';
        texts.push(("later lines", text));
    }
    for length in 0..=whole.len() {
        texts.push(("cut texts", whole[..length].to_vec()));
    }
    // A line cut short or too long, which moves all that follow; with and without the same length.
    for at in 0..whole.len() {
        let lost = [&whole[..at], &whole[at + 1..]].concat();
        let added = [&whole[..at], b" ", &whole[at..]].concat();
        texts.push(("cut and overlong lines", [&lost[..], b"\n"].concat()));
        texts.push(("cut and overlong lines", added[..whole.len()].to_vec()));
        if at % 11 == 0 {
            texts.push(("cut and overlong lines", lost));
            texts.push(("cut and overlong lines", added));
        }
    }
    for more in [
        &b"\n"[..],
        b" ",
        b"\0",
        b"         4\n",
        b"         4",
        b"         4\n\n",
    ] {
        texts.push(("texts with bytes behind", [&whole, more].concat()));
    }
    // Whole lines with another line end: ten columns and two bytes, or ten columns and none.
    let shown = String::from_utf8_lossy(&whole).into_owned();
    for end in ["\r\n", "", "\r", "\n\n"] {
        texts.push(("other line ends", shown.replace('\n', end).into_bytes()));
    }
    texts.extend(long(random));
    texts
}

/// 65,527 bytes are 5,957 lines, so a text of that length is examined and one byte more is not.
fn long(random: &mut Random) -> Vec<(&'static str, Vec<u8>)> {
    let mut texts = Vec::new();
    let tags: Vec<u32> = (1..=5_956).collect();
    let longest = Case::new(512, 9, tags).text();
    assert_eq!(longest.len(), 65_527);
    let mut add = |text: Vec<u8>| texts.push(("the longest texts", text));
    add(longest.clone());
    for line in [0, 1, 4_096, 4_097, 5_955, 5_956, random.below(5_957)] {
        for fault in [b'x', b'\n', b'\r'] {
            let mut text = longest.clone();
            text[11 * line + 9] = fault;
            add(text.clone());
            // One byte more: refused before anything is examined.
            text.push(b'\n');
            add(text);
        }
    }
    for length in [65_516, 65_517, 65_526] {
        add(longest[..length].to_vec());
    }
    for more in [1, 2, 10, 11, 12, 1_000] {
        add([&longest[..], &vec![b' '; more]].concat());
    }
    for length in [0, 65_527, 65_528, 70_000] {
        add(vec![b'\n'; length]);
    }
    // 4,096 and 4,097 tags with a fault in the last line, which comes before 5.
    for count in [4_096, 4_097] {
        let mut text = longest[..11 * (1 + count)].to_vec();
        add(text.clone());
        text[11 * count + 10] = b' ';
        add(text);
    }
    texts
}

pub fn compare(tally: &mut Tally, random: &mut Random, size: &Size) {
    for (kind, text) in damaged(random) {
        tally.kind(kind);
        tally.build(&text, 50_699);
    }
    every_byte(tally, size);
    sampled_bytes(tally, random, size);
    noise(tally, random, size);
}

/// Each byte of small texts set to all other values.
fn every_byte(tally: &mut Tally, size: &Size) {
    tally.kind("each byte of a text set to all other values");
    let texts = [
        Case::new(1, 1, []),
        Case::new(2, 9, [1, 2, 3]),
        Case::new(512, 65_536, [1, 10, u32::MAX]),
        Case::new(2, 9, [0, 2, 3]),
    ];
    for text in texts.iter().map(Case::text) {
        let mut changed = text.clone();
        for at in 0..text.len() {
            for step in (1..256).step_by(size.byte_step) {
                changed[at] = text[at].wrapping_add(step as u8);
                tally.build(&changed, 5_700);
            }
            changed[at] = text[at];
        }
    }
}

/// Single bytes of larger texts changed.
fn sampled_bytes(tally: &mut Tally, random: &mut Random, size: &Size) {
    tally.kind("sampled bytes of larger texts");
    for _ in 0..size.lists {
        for (_, case) in structured(random) {
            let mut text = case.text();
            let at = random.below(text.len());
            text[at] = match random.below(3) {
                0 => b" 0123456789\n"[random.below(12)],
                1 => text[random.below(text.len())],
                _ => random.next_u64() as u8,
            };
            tally.build(&text, case.length());
        }
    }
}

/// Bytes that a list text has, in any order.
fn noise(tally: &mut Tally, random: &mut Random, size: &Size) {
    tally.kind("noise");
    for _ in 0..100 * size.lists {
        let length = random.below(60);
        let text: Vec<u8> = (0..length)
            .map(|_| b"     0123456789\n\r\t-+"[random.below(20)])
            .collect();
        tally.build(&text, 50_699);
    }
}
