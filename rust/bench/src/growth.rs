//! How the times grow: with the number of tags at eight a group, and the seeds tried with the size of a group.

use crate::cases::{walked, Case, LIMIT};
use crate::plot::{Plot, Scale, Series};
use crate::tables::{build_samples, lookup_samples};
use crate::timing::{time, Sample, REPETITIONS};
use crate::versions::BOTH;
use random::Random;
use std::fs;
use std::io;
use std::iter;
use std::path::Path;
use tag_index::LARGEST_GROUP;

/// Tags in a group, where the number of tags grows.
const SHARE: usize = 8;

/// Random groups of each size.
const GROUPS: usize = 2_000;

/// The growth plots, each with the name of its file.
pub struct Plots(Vec<(&'static str, Plot)>);

impl Plots {
    pub fn write(&self, directory: &Path) -> io::Result<()> {
        for (name, plot) in &self.0 {
            fs::write(directory.join(name), plot.svg())?;
        }
        Ok(())
    }
}

/// Prints the growth tables.
pub fn print() -> Plots {
    Plots(vec![
        ("growth-build.svg", build()),
        ("growth-seeds.svg", seeds()),
        ("growth-lookup.svg", lookup()),
    ])
}

/// Lists of 64 to 4,096 tags with eight a group.
fn lists() -> impl Iterator<Item = Case> {
    (6..=12).map(|power| {
        let count = 1 << power;
        let groups = (count / SHARE) as u32;
        Case {
            name: "growth",
            title: "eight tags a group",
            groups,
            tags: walked(count, groups, SHARE),
        }
    })
}

/// The median of the version with this name.
fn of(samples: &[Sample], name: &str) -> f64 {
    samples
        .iter()
        .find(|sample| sample.name == name)
        .expect("the version was measured")
        .median()
}

fn build() -> Plot {
    println!("\nGrowth: build with eight tags a group, median of {REPETITIONS}");
    println!(
        "  {:>6}{:>12}{:>12}{:>8}{:>18}{:>17}",
        "tags", "proved", "plain", "ratio", "proved, a tag", "plain, a tag"
    );
    let mut points = [Vec::new(), Vec::new()];
    for case in lists() {
        let samples = build_samples(&case);
        let count = case.tags.len() as f64;
        let [proved, plain] = ["proved", "plain"].map(|name| of(&samples, name));
        println!(
            "  {:>6}{:>12}{:>12}{:>8.2}{:>18}{:>17}",
            case.tags.len(),
            time(proved),
            time(plain),
            proved / plain,
            time(proved / count),
            time(plain / count),
        );
        points[0].push((count, proved / 1e3));
        points[1].push((count, plain / 1e3));
    }
    let [proved, plain] = points;
    Plot {
        title: "Build, eight tags a group",
        x: ("tags, N", Scale::Powers),
        y: ("microseconds", Scale::Powers),
        series: vec![Series::new("proved", proved), Series::new("plain", plain)],
    }
}

/// The least seed that serves a group, if one below the limit does, as both versions say.
fn seed_of(tags: &[u32]) -> Option<u64> {
    let [proved, plain] = BOTH.map(|version| {
        let mut word = [0];
        ((version.place)(tags, LIMIT, &mut word), word)
    });
    assert_eq!(proved, plain);
    let (answer, _) = proved;
    if answer == 7 << 32 {
        return None;
    }
    assert!(answer < LIMIT.into());
    Some(answer)
}

fn seeds() -> Plot {
    println!("\nGrowth: seeds tried for a group, mean of {GROUPS} random groups, less those that no seed below {LIMIT} serves");
    println!(
        "  {:>6}{:>12}{:>12}{:>10}{:>10}",
        "size n", "mean", "(e/2)^n", "ratio", "unserved"
    );
    let mut random = Random::new(4);
    let mut means = Vec::new();
    let mut powers = Vec::new();
    for size in 1..=LARGEST_GROUP {
        let served: Vec<u64> = iter::repeat_with(|| random.tags(size))
            .take(GROUPS)
            .filter_map(|tags| seed_of(&tags))
            .collect();
        let tried: u64 = served.iter().map(|seed| seed + 1).sum();
        let mean = tried as f64 / served.len() as f64;
        let power = (std::f64::consts::E / 2.0).powi(size as i32);
        println!(
            "  {size:>6}{mean:>12.2}{power:>12.2}{:>10.2}{:>10}",
            mean / power,
            GROUPS - served.len()
        );
        means.push((size as f64, mean));
        powers.push((size as f64, power));
    }
    Plot {
        title: "Seeds tried for a group",
        x: ("tags of the group, n", Scale::Linear),
        y: ("seeds, mean", Scale::Powers),
        series: vec![Series::new("tried", means), Series::new("(e/2)^n", powers)],
    }
}

fn lookup() -> Plot {
    println!(
        "\nGrowth: lookup with eight tags a group, hits in random order, median of {REPETITIONS}"
    );
    let names = ["proved", "plain", "hash map", "sorted slice"];
    println!(
        "  {:>6}{:>12}{:>12}{:>8}{:>12}{:>15}",
        "tags", names[0], names[1], "ratio", names[2], names[3]
    );
    let mut random = Random::new(5);
    let mut points = names.map(|_| Vec::new());
    for case in lists() {
        let samples = lookup_samples(&case, &case.shuffled(&mut random));
        let medians = names.map(|name| of(&samples, name));
        println!(
            "  {:>6}{:>12}{:>12}{:>8.2}{:>12}{:>15}",
            case.tags.len(),
            time(medians[0]),
            time(medians[1]),
            medians[0] / medians[1],
            time(medians[2]),
            time(medians[3]),
        );
        for (points, median) in points.iter_mut().zip(medians) {
            points.push((case.tags.len() as f64, median));
        }
    }
    Plot {
        title: "Lookup, eight tags a group",
        x: ("tags, N", Scale::Powers),
        y: ("nanoseconds", Scale::Linear),
        series: names
            .into_iter()
            .zip(points)
            .map(|(name, points)| Series::new(name, points))
            .collect(),
    }
}
