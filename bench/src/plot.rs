//! A plot of times as an SVG file, both axes by doubling or by ten. The legend stands at the lines' right ends, in the order of their last values.

use std::fmt::Write;

pub struct Line {
    pub name: String,
    /// n and nanoseconds.
    pub points: Vec<(usize, f64)>,
}

impl Line {
    fn last(&self) -> f64 {
        self.points[self.points.len() - 1].1
    }
}

const COLOURS: [&str; 6] = ["#c0392b", "#8e5ea2", "#2c7fb8", "#1b7837", "#d98e04", "#555555"];
const WIDTH: f64 = 760.0;
const HEIGHT: f64 = 440.0;
const LEFT: f64 = 90.0;
const TOP: f64 = 44.0;
const RIGHT: f64 = 220.0;
const BOTTOM: f64 = 62.0;

fn text(out: &mut String, x: f64, y: f64, more: &str, words: &str) {
    writeln!(out, r#"<text x="{x:.1}" y="{y:.1}" {more}>{words}</text>"#).expect("a string takes every line");
}

fn path(out: &mut String, points: &str, stroke: &str) {
    writeln!(out, r#"<path d="M{points}" fill="none" {stroke}/>"#).expect("a string takes every line");
}

fn power_of_ten(power: i32) -> String {
    let (unit, by) = [("ns", 0), ("µs", 3), ("ms", 6), ("s", 9)][(power / 3).clamp(0, 3) as usize];
    format!("{} {unit}", 10f64.powi(power - by))
}

/// Heights for labels near where they belong, from the top down, none nearer than a line of text to the next.
fn spaced(wanted: &[f64]) -> Vec<f64> {
    let step = 18.0;
    let mut heights: Vec<f64> = Vec::new();
    for &at in wanted {
        heights.push(heights.last().map_or(at, |above| at.max(above + step)));
    }
    let over = heights.last().map_or(0.0, |last| last - (HEIGHT - BOTTOM)).max(0.0);
    heights.iter().map(|at| at - over).collect()
}

pub fn svg(title: &str, across: &str, upwards: &str, mut lines: Vec<Line>) -> String {
    lines.sort_by(|a, b| b.last().total_cmp(&a.last()));
    let all = || lines.iter().flat_map(|line| line.points.iter());
    let logs =
        |value: &dyn Fn(&(usize, f64)) -> f64| all().map(value).fold((f64::MAX, f64::MIN), |(low, high), v| (low.min(v), high.max(v)));
    let (x_low, x_high) = logs(&|p| (p.0 as f64).log2());
    let (y_low, y_high) = logs(&|p| p.1.log10());
    let (y_low, y_high) = (y_low.floor(), y_high.ceil());
    let x = |n: usize| LEFT + ((n as f64).log2() - x_low) / (x_high - x_low) * (WIDTH - LEFT - RIGHT);
    let y = |ns: f64| TOP + (y_high - ns.log10()) / (y_high - y_low) * (HEIGHT - TOP - BOTTOM);

    let mut out = format!(
        r#"<svg xmlns="http://www.w3.org/2000/svg" viewBox="0 0 {WIDTH} {HEIGHT}" font-family="sans-serif" font-size="13">
<rect width="{WIDTH}" height="{HEIGHT}" fill="white"/>
"#
    );
    text(&mut out, LEFT, 24.0, r#"font-size="15""#, title);
    for power in y_low as i32..=y_high as i32 {
        let at = y(10f64.powi(power));
        path(&mut out, &format!("{LEFT} {at:.1}H{:.1}", WIDTH - RIGHT), r##"stroke="#dddddd""##);
        text(&mut out, LEFT - 8.0, at + 4.0, r#"text-anchor="end""#, &power_of_ten(power));
    }
    for &(n, _) in &lines[0].points {
        path(&mut out, &format!("{:.1} {:.1}v5", x(n), HEIGHT - BOTTOM), r##"stroke="#888888""##);
        text(&mut out, x(n), HEIGHT - BOTTOM + 20.0, r#"text-anchor="middle""#, &n.to_string());
    }
    text(&mut out, (LEFT + WIDTH - RIGHT) / 2.0, HEIGHT - 16.0, r#"text-anchor="middle""#, across);
    let middle = (TOP + HEIGHT - BOTTOM) / 2.0;
    text(&mut out, 20.0, middle, &format!(r#"text-anchor="middle" transform="rotate(-90 20 {middle:.1})""#), upwards);
    let heights = spaced(&lines.iter().map(|line| y(line.last())).collect::<Vec<f64>>());
    for ((line, colour), at) in lines.iter().zip(COLOURS.iter().cycle()).zip(heights) {
        let points: Vec<String> = line.points.iter().map(|&(n, ns)| format!("{:.1} {:.1}", x(n), y(ns))).collect();
        path(&mut out, &points.join("L"), &format!(r#"stroke="{colour}" stroke-width="2""#));
        for &(n, ns) in &line.points {
            writeln!(out, r#"<circle cx="{:.1}" cy="{:.1}" r="3" fill="{colour}"/>"#, x(n), y(ns)).expect("a string takes every line");
        }
        let end = WIDTH - RIGHT;
        path(&mut out, &format!("{:.1} {:.1}L{:.1} {at:.1}", end + 5.0, y(line.last()), end + 18.0), &format!(r#"stroke="{colour}""#));
        text(&mut out, end + 22.0, at + 4.0, &format!(r#"fill="{colour}""#), &line.name);
    }
    out + "</svg>\n"
}
