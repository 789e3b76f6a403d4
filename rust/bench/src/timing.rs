//! Repetitions of several versions in turn, and their medians.

use std::time::Duration;

/// Repetitions of each version.
pub const REPETITIONS: usize = 21;

/// What a repetition lasts at least, by as many iterations as that takes.
const LEAST: Duration = Duration::from_millis(8);

/// A version: its name, and what so many iterations of it took.
pub struct Timed<'a> {
    pub name: &'static str,
    pub run: Box<dyn FnMut(u32) -> Duration + 'a>,
}

/// The nanoseconds of one operation, in each repetition.
pub struct Sample {
    pub name: &'static str,
    pub times: Vec<f64>,
}

/// Runs the versions in turn, so that what disturbs one repetition disturbs all of them.
/// `operations` of them are in an iteration.
pub fn measure(operations: usize, mut versions: Vec<Timed>) -> Vec<Sample> {
    let iterations: Vec<u32> = versions
        .iter_mut()
        .map(|version| {
            let once = (0..3).map(|_| (version.run)(1)).min().unwrap_or_default();
            (LEAST.as_nanos() / once.as_nanos().max(1)).clamp(1, 10_000) as u32
        })
        .collect();
    let mut samples: Vec<Sample> = versions
        .iter()
        .map(|version| Sample {
            name: version.name,
            times: Vec::new(),
        })
        .collect();
    for _ in 0..REPETITIONS {
        for (at, version) in versions.iter_mut().enumerate() {
            let all = (version.run)(iterations[at]).as_nanos() as f64;
            let each = all / f64::from(iterations[at]) / operations as f64;
            samples[at].times.push(each);
        }
    }
    samples
}

/// Least, first quartile, median, third quartile, greatest.
pub fn quartiles(values: &[f64]) -> [f64; 5] {
    let mut sorted = values.to_vec();
    sorted.sort_unstable_by(f64::total_cmp);
    [0, 1, 2, 3, 4].map(|quarter| sorted[quarter * (sorted.len() - 1) / 4])
}

pub fn median(values: &[f64]) -> f64 {
    quartiles(values)[2]
}

impl Sample {
    pub fn median(&self) -> f64 {
        median(&self.times)
    }

    /// This version's time over another's, repetition by repetition.
    pub fn ratios(&self, other: &Sample) -> Vec<f64> {
        self.times
            .iter()
            .zip(&other.times)
            .map(|(own, base)| own / base)
            .collect()
    }
}

/// Prints the samples under a title, each beside the one named "plain".
pub fn print(title: &str, samples: &[Sample]) {
    println!("\n{title}");
    println!(
        "  {:<14}{:>10}   {:<24}{:<24}of plain",
        "", "median", "quartiles", "least and greatest"
    );
    let plain = samples.iter().find(|sample| sample.name == "plain");
    for sample in samples {
        let [least, first, median, third, greatest] = quartiles(&sample.times);
        let ratio = plain.map_or(String::new(), |plain| {
            let [_, first, median, third, _] = quartiles(&sample.ratios(plain));
            format!("{median:.2} ({first:.2} to {third:.2})")
        });
        println!(
            "  {:<14}{:>10}   {:<24}{:<24}{ratio}",
            sample.name,
            time(median),
            format!("{} to {}", time(first), time(third)),
            format!("{} to {}", time(least), time(greatest)),
        );
    }
}

/// Nanoseconds in a unit that fits.
pub fn time(nanoseconds: f64) -> String {
    match nanoseconds {
        ns if ns < 1e3 => format!("{ns:.1} ns"),
        ns if ns < 1e6 => format!("{:.1} µs", ns / 1e3),
        ns => format!("{:.2} ms", ns / 1e6),
    }
}
