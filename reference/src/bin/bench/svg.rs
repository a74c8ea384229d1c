//! A plot with two logarithmic axes, as SVG.

use std::fmt::Write;

pub struct Line {
    pub name: &'static str,
    pub points: Vec<(f64, f64)>,
}

pub struct Plot {
    pub title: &'static str,
    pub x: &'static str,
    pub y: &'static str,
    pub lines: Vec<Line>,
}

const WIDTH: f64 = 640.0;
const HEIGHT: f64 = 400.0;
const LEFT: f64 = 70.0;
const RIGHT: f64 = 20.0;
const TOP: f64 = 40.0;
const BOTTOM: f64 = 50.0;
const COLOURS: [&str; 2] = ["#1f77b4", "#d62728"];

/// Whole powers of ten about the numbers, and their places between two ends.
struct Axis {
    low: i32,
    high: i32,
    from: f64,
    to: f64,
}

impl Axis {
    fn about(numbers: impl Iterator<Item = f64> + Clone, from: f64, to: f64) -> Self {
        let least = numbers.clone().fold(f64::INFINITY, f64::min).max(1e-3);
        let most = numbers.fold(0.0, f64::max).max(least);
        let low = least.log10().floor() as i32;
        let high = (most.log10().ceil() as i32).max(low + 1);
        Self { low, high, from, to }
    }

    fn place(&self, number: f64) -> f64 {
        let part =
            (number.max(1e-3).log10() - f64::from(self.low)) / f64::from(self.high - self.low);
        self.from + part * (self.to - self.from)
    }

    fn ticks(&self) -> impl Iterator<Item = f64> {
        (self.low..=self.high).map(|power| 10f64.powi(power))
    }
}

fn text(x: f64, y: f64, anchor: &str, words: &str) -> String {
    format!("<text x=\"{x:.1}\" y=\"{y:.1}\" text-anchor=\"{anchor}\">{words}</text>\n")
}

fn stroke(x1: f64, y1: f64, x2: f64, y2: f64, colour: &str) -> String {
    format!(
        "<line x1=\"{x1:.1}\" y1=\"{y1:.1}\" x2=\"{x2:.1}\" y2=\"{y2:.1}\" stroke=\"{colour}\"/>\n"
    )
}

impl Plot {
    fn axes(&self) -> (Axis, Axis) {
        let points = self.lines.iter().flat_map(|line| line.points.iter());
        let x = Axis::about(points.clone().map(|point| point.0), LEFT, WIDTH - RIGHT);
        let y = Axis::about(points.map(|point| point.1), HEIGHT - BOTTOM, TOP);
        (x, y)
    }

    fn grid(&self, x: &Axis, y: &Axis) -> String {
        let mut out = String::new();
        for tick in x.ticks() {
            let at = x.place(tick);
            out += &stroke(at, TOP, at, HEIGHT - BOTTOM, "#dddddd");
            out += &text(at, HEIGHT - BOTTOM + 18.0, "middle", &tick.to_string());
        }
        for tick in y.ticks() {
            let at = y.place(tick);
            out += &stroke(LEFT, at, WIDTH - RIGHT, at, "#dddddd");
            out += &text(LEFT - 6.0, at + 4.0, "end", &tick.to_string());
        }
        out += &text(WIDTH / 2.0, 22.0, "middle", self.title);
        out += &text(WIDTH / 2.0, HEIGHT - 10.0, "middle", self.x);
        out += &text(LEFT - 6.0, TOP - 8.0, "middle", self.y);
        out
    }

    fn line(&self, number: usize, x: &Axis, y: &Axis) -> String {
        let line = &self.lines[number];
        let colour = COLOURS[number % COLOURS.len()];
        let mut points = String::new();
        let mut out = String::new();
        for &(px, py) in &line.points {
            let (px, py) = (x.place(px), y.place(py));
            let _ = write!(points, "{px:.1},{py:.1} ");
            let _ =
                writeln!(out, "<circle cx=\"{px:.1}\" cy=\"{py:.1}\" r=\"3\" fill=\"{colour}\"/>");
        }
        let _ = writeln!(
            out,
            "<polyline points=\"{}\" fill=\"none\" stroke=\"{colour}\"/>",
            points.trim_end()
        );
        let at = TOP + 16.0 + 18.0 * number as f64;
        out += &stroke(LEFT + 10.0, at - 4.0, LEFT + 34.0, at - 4.0, colour);
        out += &text(LEFT + 40.0, at, "start", line.name);
        out
    }

    pub fn svg(&self) -> String {
        let (x, y) = self.axes();
        let mut out = format!(
            "<svg xmlns=\"http://www.w3.org/2000/svg\" viewBox=\"0 0 {WIDTH} {HEIGHT}\" \
             font-family=\"sans-serif\" font-size=\"12\">\n\
             <rect width=\"100%\" height=\"100%\" fill=\"white\"/>\n"
        );
        out += &self.grid(&x, &y);
        for number in 0..self.lines.len() {
            out += &self.line(number, &x, &y);
        }
        out + "</svg>\n"
    }
}
