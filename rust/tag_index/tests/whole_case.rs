//! The whole case of document 01 through the binding, the refusals that a service meets first, tag 0,
//! and the words in which each refusal is said.

use std::error::Error;

use tag_index::{BuildError, Index, Reason, Refusal, TooWide};

const TEXT: &[u8] = b"    2    9\n         1\n         2\n         3\n";
const IMAGE: &[u8] = b"    3    2\n    0    0\n    1    1\n         2\n         1\n         3\n";

fn refusal(reason: Reason, place: u32) -> Refusal {
    Refusal { reason, place }
}

#[test]
fn the_whole_case_is_built_checked_and_looked_up() {
    assert_eq!(tag_index::list_text(2, 9, &[1, 2, 3]).unwrap(), TEXT);
    let mut buffer = [b'.'; 70];
    assert_eq!(tag_index::build(TEXT, &mut buffer), Ok(66));
    assert_eq!(&buffer[..66], IMAGE);
    assert_eq!(&buffer[66..], b"....");
    assert_eq!(tag_index::check(IMAGE), Ok(()));
    assert_eq!(tag_index::strict_check(IMAGE), Ok(()));
    let numbers = [0, 1, 2, 3, 4, u32::MAX].map(|tag| tag_index::lookup(IMAGE, tag).unwrap());
    assert_eq!(numbers, [None, Some(1), Some(0), Some(2), None, None]);
}

#[test]
fn a_checked_image_is_an_index_borrowed_or_owned() {
    let borrowed = Index::new(IMAGE).unwrap();
    let owned: Index<'static> = Index::new(IMAGE.to_vec()).unwrap();
    assert_eq!(borrowed, owned);
    for index in [borrowed, owned] {
        assert_eq!((index.len(), index.groups()), (3, 2));
        assert!(!index.is_empty());
        assert_eq!(index.as_bytes(), IMAGE);
        let numbers = [0, 1, 2, 3, 4, u32::MAX].map(|tag| index.lookup(tag));
        assert_eq!(numbers, [None, Some(1), Some(0), Some(2), None, None]);
    }
    // The most tags in the most groups fill all columns of line 0 that can be filled.
    let tags: Vec<u32> = (0..4_096).map(|tag| (tag << 20) | (4_096 - tag)).collect();
    let index = Index::new(tag_index::image_of(512, 65_536, &tags).unwrap()).unwrap();
    assert_eq!((index.len(), index.groups()), (4_096, 512));
    assert_eq!(index.as_bytes().len(), tag_index::LONGEST_IMAGE);
    let mut numbers: Vec<_> = tags.iter().map(|&tag| index.lookup(tag)).collect();
    numbers.sort_unstable();
    assert!(numbers.into_iter().eq((0..4_096).map(Some)));
}

#[test]
fn an_image_that_checking_refuses_is_no_index() {
    let damaged = [IMAGE, b" "].concat();
    for image in [&b""[..], &IMAGE[..65], &damaged] {
        let refused = Index::new(image).unwrap_err();
        assert_eq!(refused, refusal(Reason::WrongLength, 0));
        assert_eq!(Err(refused), tag_index::check(image));
    }
}

#[test]
fn a_buffer_one_byte_short_is_refused_and_left_alone() {
    let mut buffer = [b'.'; 65];
    let refused = tag_index::build(TEXT, &mut buffer);
    assert_eq!(refused, Err(refusal(Reason::BufferTooShort, 0)));
    assert_eq!(buffer, [b'.'; 65]);
}

#[test]
fn empty_slices_are_refused() {
    assert_eq!(
        tag_index::build(b"", &mut []),
        Err(refusal(Reason::MalformedList, 0))
    );
    assert_eq!(
        tag_index::build(b"    1    1\n", &mut []),
        Err(refusal(Reason::BufferTooShort, 0))
    );
    assert_eq!(tag_index::check(b""), Err(refusal(Reason::WrongLength, 0)));
    assert_eq!(
        tag_index::strict_check(b""),
        Err(refusal(Reason::WrongLength, 0))
    );
    assert_eq!(
        tag_index::lookup(b"", 0),
        Err(refusal(Reason::WrongLength, 0))
    );
}

#[test]
fn a_list_with_tag_0_is_refused_and_the_buffer_left_alone() {
    for (tags, refused) in [
        (&[0][..], refusal(Reason::UnwiredTag, 0)),
        (&[0, 1, 2], refusal(Reason::UnwiredTag, 0)),
        (&[0, 0], refusal(Reason::NotAscending, 1)),
        (&[1, 0], refusal(Reason::NotAscending, 1)),
    ] {
        let mut buffer = [b'.'; 70];
        assert_eq!(
            tag_index::build_list(2, 9, tags, &mut buffer),
            Err(BuildError::Refused(refused))
        );
        assert_eq!(buffer, [b'.'; 70]);
    }
    // It comes before a buffer that is too short.
    assert_eq!(
        tag_index::build_list(2, 9, &[0, 1], &mut []),
        Err(BuildError::Refused(refusal(Reason::UnwiredTag, 0)))
    );
}

#[test]
fn an_image_with_tag_0_is_no_index_and_names_its_lowest_slot() {
    let mut image = IMAGE.to_vec();
    for slot in [2, 1] {
        image[11 * (3 + slot)..][..11].copy_from_slice(b"         0\n");
        let refused = refusal(Reason::UnwiredTag, slot as u32);
        assert_eq!(Index::new(&image), Err(refused));
        assert_eq!(tag_index::check(&image), Err(refused));
        assert_eq!(tag_index::lookup(&image, 0), Ok(None));
    }
    // Before a group at fault, after a malformed line.
    image[15] = b'1';
    assert_eq!(
        tag_index::check(&image),
        Err(refusal(Reason::UnwiredTag, 1))
    );
    image[15] = b'x';
    assert_eq!(
        tag_index::check(&image),
        Err(refusal(Reason::MalformedLine, 1))
    );
    // Nothing behind line 0 is a reason to refuse a lookup of tag 0.
    assert_eq!(
        tag_index::lookup(&image, 2),
        Err(refusal(Reason::MalformedLine, 1))
    );
    assert_eq!(tag_index::lookup(&image, 0), Ok(None));
}

#[test]
fn a_list_that_no_text_can_say_is_an_error() {
    for (groups, limit, error) in [
        (100_000, 9, TooWide::Groups(100_000)),
        (u32::MAX, u32::MAX, TooWide::Groups(u32::MAX)),
        (2, 100_000, TooWide::Limit(100_000)),
    ] {
        assert_eq!(
            tag_index::image_of(groups, limit, &[1]),
            Err(BuildError::TooWide(error))
        );
        assert!(error.to_string().contains("at most 99999"));
        let source = BuildError::from(error).source().unwrap().to_string();
        assert_eq!(source, error.to_string());
    }
    // The widest that it can say are refused by building.
    for (groups, limit, reason) in [
        (99_999, 99_999, Reason::GroupCountOutOfRange),
        (1, 99_999, Reason::LimitOutOfRange),
    ] {
        assert_eq!(
            tag_index::image_of(groups, limit, &[1]),
            Err(BuildError::Refused(refusal(reason, 0)))
        );
    }
}

#[test]
fn too_many_tags_are_refused_whatever_their_number() {
    for count in [4_097, 5_957, 20_000] {
        let tags: Vec<u32> = (1..=count).collect();
        assert_eq!(
            tag_index::image_of(512, 9, &tags),
            Err(BuildError::Refused(refusal(Reason::TooManyTags, 0)))
        );
    }
}

#[test]
fn lengths_do_not_wrap() {
    assert_eq!(tag_index::image_length(1, 0), 22);
    assert_eq!(tag_index::image_length(u32::MAX, usize::MAX), usize::MAX);
}

#[test]
fn a_refusal_says_its_number_and_names_its_place() {
    for (index, &reason) in Reason::ALL.iter().enumerate() {
        assert_eq!(reason.number() as usize, index + 1);
        assert_eq!(Reason::from_number(reason.number()), Some(reason));
        let said = refusal(reason, 321).to_string();
        assert!(said.starts_with(&format!("refusal {}: ", index + 1)));
        assert_eq!(
            said.contains("321"),
            reason.place_kind().is_some(),
            "{said}"
        );
    }
    assert_eq!(Reason::from_number(0), None);
}
