//! A line plot as SVG text.

use std::fmt::Write;

pub enum Scale {
    /// From 0 in equal steps.
    Linear,
    /// By powers of two.
    Powers,
}

pub struct Series {
    name: &'static str,
    points: Vec<(f64, f64)>,
}

impl Series {
    pub fn new(name: &'static str, points: Vec<(f64, f64)>) -> Series {
        Series { name, points }
    }
}

pub struct Plot {
    pub title: &'static str,
    /// The label and the scale of an axis.
    pub x: (&'static str, Scale),
    pub y: (&'static str, Scale),
    pub series: Vec<Series>,
}

const WIDTH: f64 = 640.0;
const HEIGHT: f64 = 400.0;
const LEFT: f64 = 70.0;
const RIGHT: f64 = 500.0;
const TOP: f64 = 40.0;
const BOTTOM: f64 = 340.0;
const COLOURS: [&str; 4] = ["#1b5e9e", "#c2571a", "#3b7d3b", "#6b4f9a"];

/// Where values stand on an axis, and the values that are marked.
struct Axis {
    low: f64,
    high: f64,
    logarithmic: bool,
    ticks: Vec<f64>,
}

impl Axis {
    fn new(scale: &Scale, values: impl Iterator<Item = f64> + Clone) -> Axis {
        let least = values.clone().fold(f64::INFINITY, f64::min);
        let greatest = values.fold(f64::NEG_INFINITY, f64::max);
        match scale {
            Scale::Powers => {
                let (low, high) = (least.log2().floor() as i32, greatest.log2().ceil() as i32);
                let step = ((high - low) as usize / 8).max(1);
                Axis {
                    low: low.into(),
                    high: high.into(),
                    logarithmic: true,
                    ticks: (low..=high)
                        .step_by(step)
                        .map(|power| 2f64.powi(power))
                        .collect(),
                }
            }
            Scale::Linear => {
                // A step of 1, 2 or 5 times a power of ten, and at most eight of them.
                let decade = 10f64.powf((greatest / 8.0).log10().floor());
                let step = [1.0, 2.0, 5.0, 10.0]
                    .map(|factor| factor * decade)
                    .into_iter()
                    .find(|step| greatest / step <= 8.0)
                    .unwrap_or(greatest);
                let count = (greatest / step).ceil() as usize;
                Axis {
                    low: 0.0,
                    high: count as f64 * step,
                    logarithmic: false,
                    ticks: (0..=count).map(|k| k as f64 * step).collect(),
                }
            }
        }
    }

    /// From 0 at the low end to 1 at the high end.
    fn at(&self, value: f64) -> f64 {
        let value = if self.logarithmic {
            value.log2()
        } else {
            value
        };
        (value - self.low) / (self.high - self.low)
    }
}

impl Plot {
    pub fn svg(&self) -> String {
        let mut svg = String::new();
        self.draw(&mut svg).expect("a string takes any text");
        svg
    }

    fn draw(&self, svg: &mut String) -> std::fmt::Result {
        let points = || self.series.iter().flat_map(|series| &series.points);
        let x = Axis::new(&self.x.1, points().map(|point| point.0));
        let y = Axis::new(&self.y.1, points().map(|point| point.1));
        let across = |value| LEFT + x.at(value) * (RIGHT - LEFT);
        let up = |value| BOTTOM - y.at(value) * (BOTTOM - TOP);

        writeln!(
            svg,
            "<svg xmlns=\"http://www.w3.org/2000/svg\" viewBox=\"0 0 {WIDTH} {HEIGHT}\" \
             font-family=\"sans-serif\" font-size=\"12\">"
        )?;
        writeln!(
            svg,
            "<rect width=\"{WIDTH}\" height=\"{HEIGHT}\" fill=\"white\"/>"
        )?;
        writeln!(
            svg,
            "<text x=\"{LEFT}\" y=\"24\" font-size=\"15\">{}</text>",
            self.title
        )?;
        for &tick in &x.ticks {
            let at = across(tick);
            writeln!(
                svg,
                "<path d=\"M{at:.1} {TOP}V{BOTTOM}\" stroke=\"#ddd\"/>\
                 <text x=\"{at:.1}\" y=\"{:.1}\" text-anchor=\"middle\">{tick}</text>",
                BOTTOM + 18.0
            )?;
        }
        for &tick in &y.ticks {
            let at = up(tick);
            writeln!(
                svg,
                "<path d=\"M{LEFT} {at:.1}H{RIGHT}\" stroke=\"#ddd\"/>\
                 <text x=\"{:.1}\" y=\"{:.1}\" text-anchor=\"end\">{tick}</text>",
                LEFT - 6.0,
                at + 4.0
            )?;
        }
        writeln!(
            svg,
            "<path d=\"M{LEFT} {TOP}V{BOTTOM}H{RIGHT}\" fill=\"none\" stroke=\"black\"/>"
        )?;
        let middle = (LEFT + RIGHT) / 2.0;
        writeln!(
            svg,
            "<text x=\"{middle}\" y=\"{}\" text-anchor=\"middle\">{}</text>",
            BOTTOM + 42.0,
            self.x.0
        )?;
        let middle = (TOP + BOTTOM) / 2.0;
        writeln!(
            svg,
            "<text x=\"16\" y=\"{middle}\" text-anchor=\"middle\" transform=\"rotate(-90 16 {middle})\">{}</text>",
            self.y.0
        )?;
        for (index, (series, colour)) in self.series.iter().zip(COLOURS).enumerate() {
            let mut path = String::new();
            for (at, &(own_x, own_y)) in series.points.iter().enumerate() {
                let letter = if at == 0 { 'M' } else { 'L' };
                write!(path, "{letter}{:.1} {:.1}", across(own_x), up(own_y))?;
            }
            let label = TOP + 12.0 + 22.0 * index as f64;
            writeln!(
                svg,
                "<path d=\"{path}\" fill=\"none\" stroke=\"{colour}\" stroke-width=\"2\"/>\n\
                 <path d=\"M{} {label}h24\" stroke=\"{colour}\" stroke-width=\"2\"/>\
                 <text x=\"{}\" y=\"{}\">{}</text>",
                RIGHT + 16.0,
                RIGHT + 46.0,
                label + 4.0,
                series.name
            )?;
        }
        writeln!(svg, "</svg>")
    }
}
