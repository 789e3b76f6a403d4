//! What came of counting parts: groups and seeds of every kind, the number of filling sequences, and the
//! seeds that placing passes over.

use std::collections::{BTreeMap, BTreeSet};

use model::hash::place_of;
use model::placing::LARGEST_GROUP;

/// Up to this size all 2^n sequences of a group are tried.
const ENUMERATED: usize = 12;

/// How many of these were not served, and how many were.
type ByFate = [u64; 2];

/// Groups, with a seed each, of which the parts were counted.
#[derive(Default)]
pub struct Counted {
    sizes: BTreeMap<usize, ByFate>,
    /// The numbers of parts that came.
    numbers: [BTreeSet<u32>; 2],
    /// Groups that leave a place untouched, and groups that touch all and are not served.
    untouched: u64,
    touched: u64,
    /// Groups in which a tag has equal places, and in which two tags have the same pair.
    equal_places: ByFate,
    same_pair: ByFate,
    /// The least seed there is, and the greatest.
    ends: [ByFate; 2],
    /// Groups of which all sequences were tried, and the sequences that fill them.
    tried: u64,
    filling: u64,
    /// Groups that were placed, or refused with 7, and the seeds that placing passed over in them.
    placed: u64,
    passed_over: u64,
    /// Made or drawn, besides those that stand for every sequence of pairs of places.
    pub made: u64,
}

impl Counted {
    /// Counts a group, a seed and the answer of both sides, or says what is wrong with it: "When a seed
    /// serves n tags on n places, the number of filling sequences is 2 to the power of the number of
    /// parts", and otherwise none fills.
    pub fn add(&mut self, tags: &[u32], seed: u32, answer: u64) -> Result<(), String> {
        let n = tags.len();
        let (number, fate) = ((answer / 2) as u32, (answer % 2) as usize);
        self.sizes.entry(n).or_default()[fate] += 1;
        self.numbers[fate].insert(number);
        for (end, seeds) in [0, 65_535].into_iter().zip(&mut self.ends) {
            seeds[fate] += u64::from(seed == end);
        }

        let (mut touched, mut equal_places, mut same_pair) = (0u32, false, false);
        let mut pairs = [0; LARGEST_GROUP];
        for (index, &tag) in tags.iter().enumerate() {
            let [first, second] = [0, 1].map(|choice| place_of(n as u32, seed, choice, tag));
            pairs[index] = 1u32 << first | 1 << second;
            touched |= pairs[index];
            equal_places |= first == second;
            same_pair |= first != second && pairs[..index].contains(&pairs[index]);
        }
        let untouched = (touched.count_ones() as usize) < n;
        self.untouched += u64::from(untouched);
        self.touched += u64::from(!untouched && fate == 0);
        self.equal_places[fate] += u64::from(equal_places);
        self.same_pair[fate] += u64::from(same_pair);

        if n <= ENUMERATED {
            let filling = model::filling_sequences(tags, seed);
            if filling != (fate as u64) << number {
                return Err(format!("{filling} sequences fill"));
            }
            self.tried += 1;
            self.filling += filling;
        }
        Ok(())
    }

    /// Counts a group that was placed and the seeds below its own.
    pub fn placed(&mut self, passed_over: u32) {
        self.placed += 1;
        self.passed_over += u64::from(passed_over);
    }

    /// Prints the counts, and says whether there were enough: of groups made or drawn, and of each kind
    /// and each size, served and not; and whether each number of parts came that there can be.
    pub fn report(&self, least: u64) -> bool {
        let all = |fate: usize| self.sizes.values().map(|counts| counts[fate]).sum::<u64>();
        let Counted {
            untouched,
            touched,
            equal_places,
            same_pair,
            ends,
            tried,
            filling,
            placed,
            passed_over,
            made,
            ..
        } = self;
        println!(
            "            of counting parts: {} groups and seeds, {made} of them made or drawn; {} served, {} not",
            all(0) + all(1),
            all(1),
            all(0)
        );
        let of_size = |n| self.sizes.get(&n).copied().unwrap_or_default();
        let sizes = [0, 1, 2, 31, LARGEST_GROUP].map(of_size);
        println!("            of 0, 1, 2, 31 and 32 tags, not served and served: {sizes:?}; of seeds 0 and 65535: {ends:?}");
        let [not_served, served] = &self.numbers;
        println!(
            "            {} numbers of parts served, {} not",
            served.len(),
            not_served.len()
        );
        println!("            with an untouched place: {untouched}; not served with none: {touched}; with equal places, not served and served: {equal_places:?}; with two tags on the same pair: {same_pair:?}");
        println!("            of up to {ENUMERATED} tags: {filling} filling sequences of {tried} groups and seeds, 2 to the power of the parts or none");
        println!("            of {placed} groups, placed too: the seed found serves and the {passed_over} below it do not");
        if *made < least {
            println!("compare: fewer than {least} groups made or drawn for counting parts");
        }
        let largest = LARGEST_GROUP as u32;
        // One tag is served by every seed.
        let both_fates = |n: &usize| of_size(*n)[1] > 0 && (*n < 2) == (of_size(*n)[0] == 0);
        *made >= least
            && (0..=LARGEST_GROUP).all(|n| both_fates(&n))
            && served.iter().copied().eq(0..=largest)
            && not_served.iter().copied().eq(2..=largest)
            && [*equal_places, *same_pair, ends[0], ends[1]]
                .concat()
                .iter()
                .all(|&count| count > 0)
            && [*untouched, *touched, *filling, *passed_over]
                .iter()
                .all(|&count| count > 0)
    }
}
