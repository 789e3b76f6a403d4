//! The index without tags through the binding: small groups against all words, images of every size,
//! strangers, the refusals and their order, and damaged images.

use tag_index::tagless::{self, LONGEST_TAGLESS_IMAGE};
use tag_index::{raw, BuildError, Reason, Refusal, TaglessIndex, LARGEST_GROUP, UNKNOWN};

const TEXT: &[u8] = b"    2    9\n         1\n         2\n         3\n";
const IMAGE: &[u8] = b"    3    2\n    0    0         0\n    1    1         1\n";

fn refusal(reason: Reason, place: u32) -> Refusal {
    Refusal { reason, place }
}

/// The formulas of document 01 and of document 02, §5: the group of a tag, and its place in a group of n
/// tags under a seed and a word.
fn group_of(tag: u32, groups: u32) -> u32 {
    ((u64::from(tag.wrapping_mul(2_246_822_507)) * u64::from(groups)) >> 32) as u32
}

fn place_under(n: usize, seed: u32, word: u32, tag: u32) -> usize {
    let row = (2 * seed + 1).wrapping_mul(2_246_822_507).wrapping_mul(tag);
    let choice = (row & word).count_ones() % 2;
    let multiplier = (4 * seed + 2 * choice + 1).wrapping_mul(2_654_435_761);
    ((u64::from(multiplier.wrapping_mul(tag)) * n as u64) >> 32) as usize
}

/// The first seed below the limit and its least word, found by trying all words that can be the least:
/// where the tags are multiples of 2^shift, the lower bits of a word have no effect.
fn least(tags: &[u32], limit: u32, shift: u32) -> Option<(u32, u32)> {
    let words = (0..1u32 << (32 - shift)).map(|high| high << shift);
    let serves = |seed: u32, word: u32| {
        let mut taken = 0u64;
        tags.iter().all(|&tag| {
            let place = 1 << place_under(tags.len(), seed, word, tag);
            let free = taken & place == 0;
            taken |= place;
            free
        })
    };
    (0..limit).find_map(|seed| {
        let word = words.clone().find(|&word| serves(seed, word))?;
        Some((seed, word))
    })
}

/// Image and group line of a list in one group.
fn one_group(count: usize, seed: u32, word: u32) -> Vec<u8> {
    format!("{count:>5}    1\n    0{seed:>5}{word:>10}\n").into_bytes()
}

#[test]
fn the_whole_case_is_built_checked_and_looked_up() {
    let mut buffer = [b'.'; 60];
    assert_eq!(tagless::build(TEXT, &mut buffer), Ok(53));
    assert_eq!(&buffer[..53], IMAGE);
    assert_eq!(&buffer[53..], b".......");
    assert_eq!(tagless::check(IMAGE), Ok(()));
    let numbers = [0, 2, 1, 3].map(|tag| tagless::lookup(IMAGE, tag).unwrap());
    assert_eq!(numbers, [None, Some(0), Some(1), Some(2)]);
    for stranger in [4, 5, 1 << 31, u32::MAX] {
        let number = tagless::lookup(IMAGE, stranger).unwrap();
        assert!(number.is_some_and(|number| number < 3));
    }
}

#[test]
fn a_checked_image_is_an_index_borrowed_or_owned() {
    let borrowed = TaglessIndex::new(IMAGE).unwrap();
    let owned: TaglessIndex<'static> = TaglessIndex::new(IMAGE.to_vec()).unwrap();
    assert_eq!(borrowed, owned);
    for index in [borrowed, owned] {
        assert_eq!((index.len(), index.groups()), (3, 2));
        assert!(!index.is_empty());
        assert_eq!(index.as_bytes(), IMAGE);
        let numbers = [0, 2, 1, 3].map(|tag| index.lookup(tag));
        assert_eq!(numbers, [None, Some(0), Some(1), Some(2)]);
    }
    // The most tags in the most groups fill all columns of line 0 that can be filled.
    let tags: Vec<u32> = (0..4_096).map(|tag| (tag << 20) | (4_096 - tag)).collect();
    let image = tagless::image_of(512, 65_536, &tags).unwrap();
    assert_eq!(image.len(), LONGEST_TAGLESS_IMAGE);
    let index = TaglessIndex::new(image).unwrap();
    assert_eq!((index.len(), index.groups()), (4_096, 512));
    let mut numbers: Vec<_> = tags.iter().map(|&tag| index.lookup(tag)).collect();
    numbers.sort_unstable();
    assert!(numbers.into_iter().eq((0..4_096).map(Some)));
}

#[test]
fn small_groups_have_the_least_seed_and_the_least_of_all_words() {
    // Multiples of 2^24, of which eight bits of a word decide; of one to nine tags.
    for n in 0..=9 {
        for start in [1, 3, 50, 117, 200] {
            let multiples = (0..n).map(|step| (start + step * step + step / 3) % 256);
            let mut tags: Vec<u32> = multiples.map(|multiple| multiple << 24).collect();
            tags.retain(|&tag| tag != 0);
            tags.sort_unstable();
            tags.dedup();
            let answer = tagless::image_of(1, 300, &tags);
            match least(&tags, 300, 24) {
                Some((seed, word)) => {
                    assert_eq!(answer, Ok(one_group(tags.len(), seed, word)));
                    // The least limit that suffices, and one less.
                    assert_eq!(tagless::image_of(1, seed + 1, &tags), answer);
                    let refused = tagless::image_of(1, seed, &tags).unwrap_err();
                    let reason = match seed {
                        0 => Reason::LimitOutOfRange,
                        _ => Reason::NoSeed,
                    };
                    assert_eq!(refused, BuildError::Refused(refusal(reason, 0)));
                }
                None => {
                    let refused = BuildError::Refused(refusal(Reason::NoSeed, 0));
                    assert_eq!(answer, Err(refused));
                }
            }
        }
    }
}

#[test]
fn a_seed_that_serves_but_has_no_word_is_passed_over() {
    let tags = [19, 24, 43];
    assert_eq!(tag_index::place_group(&tags, 1).unwrap().seed, 0);
    for limit in [1, 2] {
        let refused = tagless::image_of(1, limit, &tags);
        let no_seed = refusal(Reason::NoSeed, 0);
        assert_eq!(refused, Err(BuildError::Refused(no_seed)));
    }
    assert_eq!(tagless::image_of(1, 3, &tags), Ok(one_group(3, 2, 0)));
    // No seed has a word for these four.
    let tags = [2, 4, 5, 7].map(|multiple| multiple << 29);
    assert_eq!(tag_index::place_group(&tags, 9).unwrap().seed, 1);
    let refused = tagless::image_of(1, 65_536, &tags);
    let no_seed = refusal(Reason::NoSeed, 0);
    assert_eq!(refused, Err(BuildError::Refused(no_seed)));
}

#[test]
fn groups_of_every_size_are_numbered_without_gaps() {
    for n in 0..=LARGEST_GROUP {
        let tags: Vec<u32> = (1..=n as u32).map(|step| step * step * 104_729).collect();
        let index = TaglessIndex::new(tagless::image_of(1, 65_536, &tags).unwrap()).unwrap();
        let mut numbers: Vec<_> = tags.iter().map(|&tag| index.lookup(tag)).collect();
        numbers.sort_unstable();
        assert!(numbers.into_iter().eq((0..n as u32).map(Some)), "{n}");
        // A stranger's number is below N; in an empty group there is none.
        for stranger in [7, 1 << 31, u32::MAX] {
            let number = index.lookup(stranger);
            assert_eq!(number.is_some(), n > 0);
            assert!(number.is_none_or(|number| (number as usize) < n));
        }
        assert_eq!(index.lookup(0), None);
    }
    let tags: Vec<u32> = (1..=LARGEST_GROUP as u32 + 1).collect();
    let refused = tagless::image_of(1, 65_536, &tags);
    let too_large = refusal(Reason::GroupTooLarge, 0);
    assert_eq!(refused, Err(BuildError::Refused(too_large)));
}

#[test]
fn refusals_come_in_order_and_leave_the_buffer_alone() {
    let too_many: Vec<u32> = (0..4_097).collect();
    let mut crowded = vec![];
    // 33 tags of group 2 in four groups, and of group 1 as many as no seed below 1 serves.
    for (group, count) in [(1, 20), (2, 33)] {
        crowded.extend((1..).filter(|&tag| group_of(tag, 4) == group).take(count));
    }
    crowded.sort_unstable();
    let list_text =
        |groups, limit, tags: &[u32]| tag_index::list_text(groups, limit, tags).unwrap();
    for (text, room, reason, place) in [
        (vec![b' '; 65_538], 0, Reason::TooManyTags, 0),
        (b"    2    9".to_vec(), 0, Reason::MalformedList, 0),
        (
            b"    0    0\n         x\n".to_vec(),
            0,
            Reason::MalformedList,
            1,
        ),
        (list_text(0, 0, &too_many), 0, Reason::TooManyTags, 0),
        (list_text(0, 0, &[5, 5]), 0, Reason::GroupCountOutOfRange, 0),
        (list_text(513, 9, &[]), 0, Reason::GroupCountOutOfRange, 0),
        (list_text(1, 0, &[5, 5]), 0, Reason::LimitOutOfRange, 0),
        (list_text(1, 65_537, &[5, 5]), 0, Reason::LimitOutOfRange, 0),
        (list_text(1, 1, &[0, 5, 5]), 0, Reason::NotAscending, 2),
        (list_text(1, 1, &[0, 1, 3]), 0, Reason::UnwiredTag, 0),
        (list_text(4, 1, &crowded), 94, Reason::BufferTooShort, 0),
        (list_text(4, 1, &crowded), 95, Reason::GroupTooLarge, 2),
        (list_text(1, 1, &[1, 3]), 31, Reason::BufferTooShort, 0),
        (list_text(1, 1, &[1, 3]), 32, Reason::NoSeed, 0),
        (list_text(2, 1, &[1, 2, 3]), 53, Reason::NoSeed, 1),
    ] {
        let mut image = vec![b'.'; room];
        let refused = refusal(reason, place);
        assert_eq!(tagless::build(&text, &mut image), Err(refused));
        let answer = raw::tagless_build(&text, &mut image);
        assert_eq!((answer >> 32) as u32, reason.number());
        assert_eq!(answer as u32, place);
        assert!(image.iter().all(|&byte| byte == b'.'));
    }
    assert!(matches!(
        tagless::image_of(100_000, 1, &[1]),
        Err(BuildError::TooWide(_))
    ));
    // 9 comes from building without tags before 10 and 7, and from building with tags behind them.
    let mut image = [b'.'; 10];
    let short = tagless::build_list(1, 1, &[1, 3], &mut image).unwrap_err();
    let refused = refusal(Reason::BufferTooShort, 0);
    assert_eq!(short, BuildError::Refused(refused));
    let no_seed = tag_index::build_list(1, 1, &[1, 3], &mut image).unwrap_err();
    assert_eq!(no_seed, BuildError::Refused(refusal(Reason::NoSeed, 0)));
}

#[test]
fn a_buffer_of_just_the_length_is_filled_and_a_longer_one_kept_behind() {
    for (groups, tags) in [(1, &[][..]), (2, &[1, 2, 3]), (512, &[9])] {
        let length = tagless::image_length(groups);
        for room in [0, 11, length - 1] {
            let mut image = vec![b'.'; room];
            let refused = tagless::build_list(groups, 9, tags, &mut image).unwrap_err();
            let short = refusal(Reason::BufferTooShort, 0);
            assert_eq!(refused, BuildError::Refused(short));
            assert!(image.iter().all(|&byte| byte == b'.'));
        }
        for room in [length, length + 1, length + 21] {
            let mut image = vec![b'.'; room];
            assert_eq!(tagless::build_list(groups, 9, tags, &mut image), Ok(length));
            assert!(image[length..].iter().all(|&byte| byte == b'.'));
            assert_eq!(tagless::check(&image[..length]), Ok(()));
        }
    }
}

#[test]
fn faults_of_an_image_are_refused_where_they_are_met() {
    let with = |at: usize, bytes: &[u8]| {
        let mut image = IMAGE.to_vec();
        image[at..at + bytes.len()].copy_from_slice(bytes);
        image
    };
    let line = |number: u32| Some(refusal(Reason::MalformedLine, number));
    let group = |number: u32| Some(refusal(Reason::FaultyGroup, number));
    let length = Some(refusal(Reason::WrongLength, 0));
    // Checking, and lookups of 0, of 2, which is in group 0, and of 1, which is in group 1.
    for (image, checked, of_0, of_2, of_1) in [
        (IMAGE.to_vec(), None, None, None, None),
        (IMAGE[..10].to_vec(), length, length, length, length),
        (IMAGE[..52].to_vec(), length, length, length, length),
        ([IMAGE, b"\n"].concat(), length, length, length, length),
        (with(5, b"    0"), line(0), line(0), line(0), line(0)),
        (with(0, b" 4097"), line(0), line(0), line(0), line(0)),
        (with(21, b"4294967296"), line(1), None, line(1), None),
        (with(42, b"4294967296"), line(2), None, line(2), line(2)),
        (with(42, b"9999999999"), line(2), None, line(2), line(2)),
        (with(37, b"65536"), line(2), None, line(2), line(2)),
        (with(52, b"\r"), line(2), None, line(2), line(2)),
        (with(11, b"    1"), group(0), None, group(0), None),
        (with(32, b"    4"), group(1), None, group(0), group(1)),
        (with(32, b"   33"), group(0), None, group(0), group(1)),
        // Any seed up to 65,535 and any word up to 4,294,967,295 are in order.
        (with(37, b"65535"), None, None, None, None),
        (with(42, b"4294967295"), None, None, None, None),
    ] {
        let text = image.escape_ascii();
        assert_eq!(tagless::check(&image).err(), checked, "{text}");
        assert_eq!(TaglessIndex::new(&image).err(), checked, "{text}");
        for (tag, refused) in [(0, of_0), (2, of_2), (1, of_1)] {
            assert_eq!(tagless::lookup(&image, tag).err(), refused, "{tag} {text}");
        }
    }
    // Every number below N, whatever the word.
    for word in [0, 1, 77, u32::MAX] {
        let image = with(42, format!("{word:>10}").as_bytes());
        let index = TaglessIndex::new(&image).unwrap();
        for tag in 1..200 {
            assert!(index.lookup(tag).is_some_and(|number| number < 3));
        }
    }
}

#[test]
fn the_two_images_are_none_of_the_other_kind() {
    let with_tags = tag_index::image_of(2, 9, &[1, 2, 3]).unwrap();
    let wrong_length = Err(refusal(Reason::WrongLength, 0));
    assert_eq!(tagless::check(&with_tags), wrong_length);
    assert_eq!(tag_index::check(IMAGE), wrong_length);
    assert_eq!(raw::tagless_lookup(IMAGE, 0), UNKNOWN);
    assert_eq!(raw::tagless_lookup(&with_tags, 0), 11 << 32);
}
