//! Hash formulas against exact arithmetic; figures against their grammar.

use model::hash::{group_of, multiplier, place_of, G, K};
use model::line::{figure, read_figure, width};
use random::Random;

#[test]
fn the_constants_are_the_papers_in_both_notations() {
    assert_eq!((G, K), (0x9E37_79B1, 0x85EB_CA6B));
}

#[test]
fn groups_and_places_are_the_formulas_in_exact_arithmetic() {
    let two_to_32 = 1u128 << 32;
    let mut random = Random::new(1);
    for _ in 0..20_000 {
        let (tag, seed, choice) = (random.tag(), random.below(65_536), random.below(2));
        let (n, groups) = (1 + random.below(32), 1 + random.below(512));
        let a = (4 * seed as u128 + 2 * choice as u128 + 1) * 2_654_435_761 % two_to_32;
        assert_eq!(a % 2, 1);
        let place = (a * u128::from(tag) % two_to_32) * n as u128 / two_to_32;
        let group = (2_246_822_507 * u128::from(tag) % two_to_32) * groups as u128 / two_to_32;
        let (seed, choice) = (seed as u32, choice as u32);
        assert_eq!(u128::from(multiplier(seed, choice)), a);
        assert_eq!(u128::from(place_of(n as u32, seed, choice, tag)), place);
        assert_eq!(u128::from(group_of(tag, groups as u32)), group);
        assert!(place < n as u128 && group < groups as u128);
    }
}

#[test]
fn a_power_of_two_gives_odd_multiply_shift() {
    // Document 000, definition 5: (a x mod 2^u) div 2^(u - s), with u = 32.
    let mut random = Random::new(2);
    for _ in 0..2_000 {
        let (tag, seed) = (random.tag(), random.below(65_536) as u32);
        for bits in 1..=5 {
            let product = (multiplier(seed, 1) as u32).wrapping_mul(tag);
            assert_eq!(place_of(1 << bits, seed, 1, tag), product >> (32 - bits));
        }
    }
}

#[test]
fn every_five_column_value_reads_back() {
    for value in 0..=99_999 {
        assert_eq!(read_figure(&figure(value, 5)), Some(value));
    }
    assert_eq!(figure(0, 5), b"    0");
    assert_eq!(figure(4_294_967_295, 10), b"4294967295");
}

#[test]
fn a_width_is_the_number_of_digits_and_a_figure_is_those_digits() {
    let mut random = Random::new(3);
    let ends = (0..=9).flat_map(|power| {
        let first = 10u64.pow(power);
        [first - 1, first, first + 1]
    });
    let random = (0..20_000).map(|_| u64::from(random.tag()) >> random.below(32));
    let mut widths = [0; 11];
    for value in ends.chain([u64::from(u32::MAX)]).chain(random) {
        let digits = value.to_string();
        assert_eq!(width(value), digits.len());
        assert_eq!(figure(value, 10), format!("{digits:>10}").into_bytes());
        widths[width(value)] += 1;
    }
    assert!(widths[0] == 0 && widths[1..].iter().all(|&count| count > 20));
}

#[test]
fn a_field_is_well_formed_exactly_by_the_grammar() {
    // Spaces, then one 0 or a run of digits that does not begin with 0, to the field's end.
    let by_grammar = |field: &[u8]| {
        let digits: Vec<u8> = field
            .iter()
            .copied()
            .skip_while(|&byte| byte == b' ')
            .collect();
        let ok = digits == b"0"
            || (!digits.is_empty()
                && digits[0] != b'0'
                && digits.iter().all(|byte| byte.is_ascii_digit()));
        ok.then(|| String::from_utf8(digits).unwrap().parse::<u64>().unwrap())
    };
    let alphabet = b" 0129a-+\t";
    let mut well_formed = 0;
    for code in 0..alphabet.len().pow(5) {
        let field: Vec<u8> = (0..5)
            .map(|column| alphabet[code / alphabet.len().pow(column) % alphabet.len()])
            .collect();
        assert_eq!(read_figure(&field), by_grammar(&field), "{field:?}");
        well_formed += usize::from(read_figure(&field).is_some());
    }
    // One digit in five columns: 0, 1, 2, 9; then 3 × 4^k with k more digits.
    assert_eq!(well_formed, 4 + 3 * (4 + 16 + 64 + 256));
}
