//! The plot docs/bench.svg: the ratios to Rust as bars, and below them how a session grows, as lines.

use super::{grouped, ratio, warning, Measured};
use crate::library;
use crate::rows::growth::Growth;
use crate::rows::Row;

const WIDTH: f64 = 980.0;
/// Where the bars begin and where the longest ends.
const BARS: (f64, f64) = (420.0, 920.0);
const BAR_STEP: f64 = 20.0;
/// Where the growth's axes are, from left to right, and their height.
const LINES: (f64, f64) = (90.0, 800.0);
const LINES_HEIGHT: f64 = 200.0;

/// The plot has its own background, so that it can be read on any page; a dark one where that is preferred.
const STYLE: &str = "<style>
  text { font: 12px sans-serif; fill: #24292f; }
  .title { font-size: 14px; font-weight: bold; }
  .end { text-anchor: end; }
  .middle { text-anchor: middle; }
  .back { fill: #ffffff; }
  .rule { stroke: #c4c9cf; fill: none; }
  .bar { fill: #1f6fbf; }
  .proved { stroke: #1f6fbf; stroke-width: 2; fill: none; }
  .rust { stroke: #b3541e; stroke-width: 2; stroke-dasharray: 6 4; fill: none; }
  @media (prefers-color-scheme: dark) {
    text { fill: #d7dce2; }
    .back { fill: #15191e; }
    .rule { stroke: #4a525b; }
    .bar { fill: #62aef5; }
    .proved { stroke: #62aef5; }
    .rust { stroke: #f0935a; }
  }
</style>";

pub fn svg(measured: &Measured) -> String {
    let bars_end = 60.0 + BAR_STEP * measured.rows.len() as f64;
    let height = bars_end + LINES_HEIGHT + 120.0;
    let mut parts = vec![
        format!("<svg xmlns=\"http://www.w3.org/2000/svg\" viewBox=\"0 0 {WIDTH} {height}\" role=\"img\">"),
        format!("<title>{}</title>", title()),
        STYLE.to_string(),
        format!("<rect class=\"back\" width=\"{WIDTH}\" height=\"{height}\"/>"),
    ];
    parts.extend(bars(&measured.rows, bars_end));
    parts.extend(lines(&measured.growth, bars_end + 70.0));
    parts.push(String::from("</svg>\n"));
    parts.join("\n")
}

fn title() -> String {
    format!("time over the same bytes: {} / straightforward Rust", library::SIDE.name)
}

fn text(class: &str, x: f64, y: f64, words: &str) -> String {
    format!("<text class=\"{class}\" x=\"{x:.1}\" y=\"{y:.1}\">{words}</text>")
}

fn rule(class: &str, from: (f64, f64), to: (f64, f64)) -> String {
    let ((x1, y1), (x2, y2)) = (from, to);
    format!("<path class=\"{class}\" d=\"M {x1:.1} {y1:.1} L {x2:.1} {y2:.1}\"/>")
}

/// A bar for each row, as long as the ratio; the dashed line is the time of Rust.
fn bars(rows: &[Row], end: f64) -> Vec<String> {
    let most = rows.iter().map(|row| row.proved / row.rust).fold(1.0, f64::max);
    let place = |ratio: f64| BARS.0 + (BARS.1 - BARS.0) * ratio / most;
    let mut parts = vec![text("title", 20.0, 24.0, &title())];
    parts.extend(warning().map(|warning| text("", 20.0, 42.0, warning)));
    for (number, row) in rows.iter().enumerate() {
        let y = 52.0 + BAR_STEP * number as f64;
        let told = row.proved / row.rust;
        let name = format!("{}: {}, {}", row.what, row.over, grouped(row.bytes as u64));
        let width = place(told) - BARS.0;
        parts.push(text("end", BARS.0 - 8.0, y + 12.0, &name));
        parts
            .push(format!("<rect class=\"bar\" x=\"{:.1}\" y=\"{y:.1}\" width=\"{width:.1}\" height=\"14\"/>", BARS.0));
        parts.push(text("", place(told) + 6.0, y + 12.0, &ratio(row.proved, row.rust)));
    }
    parts.push(rule("rule", (BARS.0, 46.0), (BARS.0, end)));
    parts.push(rule("rust", (place(1.0), 46.0), (place(1.0), end)));
    parts.push(text("middle", place(1.0), end + 16.0, "Rust = 1"));
    parts
}

/// The time of a session by the size of the journal.
fn lines(growth: &[Growth], top: f64) -> Vec<String> {
    let most = growth.iter().map(|size| size.rust.max(size.proved)).fold(0.0, f64::max);
    let largest = growth.iter().map(|size| size.bytes).max().unwrap_or(1) as f64;
    let bottom = top + LINES_HEIGHT;
    let x = |size: &Growth| LINES.0 + (LINES.1 - LINES.0) * size.bytes as f64 / largest;
    let y = |time: f64| bottom - (LINES_HEIGHT - 20.0) * time / most;
    let title = "time of a session of update-nodes over a mixed journal, by the journal's size";
    let mut parts = vec![text("title", 20.0, top - 14.0, title)];
    parts.push(rule("rule", (LINES.0, top), (LINES.0, bottom)));
    parts.push(rule("rule", (LINES.0, bottom), (LINES.1, bottom)));
    for size in growth {
        let name = format!("{} KiB", size.bytes >> 10);
        parts.push(rule("rule", (x(size), bottom), (x(size), bottom + 5.0)));
        parts.push(text("middle", x(size), bottom + 20.0, &name));
    }
    for quarter in 0..=4 {
        let time = most * f64::from(quarter) / 4.0;
        parts.push(rule("rule", (LINES.0 - 5.0, y(time)), (LINES.0, y(time))));
        parts.push(text("end", LINES.0 - 10.0, y(time) + 4.0, &format!("{:.1} ms", time / 1e3)));
    }
    parts.extend(curve("rust", "Rust", growth, x, |size| y(size.rust)));
    parts.extend(curve("proved", library::SIDE.name, growth, x, |size| y(size.proved)));
    parts
}

/// One line through the sizes, with its name behind the last.
fn curve(
    class: &str,
    name: &str,
    growth: &[Growth],
    x: impl Fn(&Growth) -> f64,
    y: impl Fn(&Growth) -> f64,
) -> Vec<String> {
    let points: Vec<String> = growth.iter().map(|size| format!("{:.1},{:.1}", x(size), y(size))).collect();
    let line = format!("<polyline class=\"{class}\" points=\"{}\"/>", points.join(" "));
    let name = growth.last().map(|size| text("", x(size) + 8.0, y(size) + 4.0, name));
    [line].into_iter().chain(name).collect()
}
