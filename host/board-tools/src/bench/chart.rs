//! The quotients as a bar chart.

use super::report::{Ratio, Report, Row};
use std::fmt::Write;

const LEFT: f64 = 250.0;
const WIDTH: f64 = 620.0;
const TOP: f64 = 96.0;
const ROW: f64 = 26.0;
const BAR: f64 = 9.0;

const CALL_COLOUR: &str = "#2f6db5";
const RUN_COLOUR: &str = "#e08a2c";

/// A logarithmic axis from 1 to a power of ten.
struct Axis {
    decades: f64,
}

impl Axis {
    fn of(rows: &[Row]) -> Axis {
        let largest = rows
            .iter()
            .flat_map(|row| [row.call_by_step, row.run_by_step])
            .flat_map(|ratio| [ratio.middle, ratio.high])
            .fold(10.0, f64::max);
        Axis { decades: largest.log10().ceil() }
    }

    /// How far right a quotient lies; those below 1 lie at the axis.
    fn at(&self, value: f64) -> f64 {
        WIDTH * value.max(1.0).log10() / self.decades
    }

    fn lines(&self, out: &mut String, bottom: f64) {
        for decade in 0..=self.decades as i32 {
            for step in 1..10 {
                let value = f64::from(step) * 10f64.powi(decade);
                let x = LEFT + self.at(value);
                if x > LEFT + WIDTH + 0.5 {
                    break;
                }
                let colour = if step == 1 { "#8a8f98" } else { "#e3e6ea" };
                let _ = writeln!(
                    out,
                    r#"<line x1="{x:.1}" y1="{TOP}" x2="{x:.1}" y2="{bottom}" stroke="{colour}" stroke-width="1"/>"#
                );
                if step == 1 {
                    let y = TOP - 8.0;
                    let _ = writeln!(
                        out,
                        r##"<text x="{x:.1}" y="{y}" text-anchor="middle" fill="#444">{value}×</text>"##
                    );
                }
            }
        }
    }
}

/// A bar with its spread and its number.
fn bar(out: &mut String, axis: &Axis, ratio: Ratio, y: f64, colour: &str) {
    let length = axis.at(ratio.middle);
    let (low, high) = (LEFT + axis.at(ratio.low), LEFT + axis.at(ratio.high));
    let (middle, end) = (y + BAR / 2.0, LEFT + length.max(axis.at(ratio.high)) + 6.0);
    let _ = writeln!(
        out,
        r#"<rect x="{LEFT}" y="{y:.1}" width="{length:.1}" height="{BAR}" fill="{colour}"/>"#
    );
    let _ = writeln!(
        out,
        r##"<line x1="{low:.1}" y1="{middle:.1}" x2="{high:.1}" y2="{middle:.1}" stroke="#1b1e23" stroke-width="1.2"/>"##
    );
    let y = y + BAR - 0.5;
    let _ = writeln!(
        out,
        r##"<text x="{end:.1}" y="{y:.1}" font-size="10" fill="#333">{:.1}</text>"##,
        ratio.middle
    );
}

fn legend(out: &mut String) {
    let entries = [
        (CALL_COLOUR, "general call through the library / ordinary untested step"),
        (RUN_COLOUR, "untested step in the library's run / ordinary untested step"),
    ];
    for (index, (colour, text)) in entries.iter().enumerate() {
        let y = 38.0 + 17.0 * index as f64;
        let (box_y, x) = (y - 9.0, LEFT + 16.0);
        let _ = writeln!(
            out,
            r#"<rect x="{LEFT}" y="{box_y}" width="10" height="10" fill="{colour}"/>"#
        );
        let _ = writeln!(out, r##"<text x="{x}" y="{y}" fill="#222">{text}</text>"##);
    }
}

/// The chart as an SVG file.
pub fn draw(report: &Report) -> String {
    let axis = Axis::of(&report.rows);
    let bottom = TOP + ROW * report.rows.len() as f64;
    let (width, height) = (LEFT + WIDTH + 70.0, bottom + 20.0);
    let mut out = format!(
        r##"<svg xmlns="http://www.w3.org/2000/svg" width="{width}" height="{height}" viewBox="0 0 {width} {height}" font-family="sans-serif" font-size="12">
<rect width="{width}" height="{height}" fill="#fcfcfa"/>
<text x="{LEFT}" y="20" font-size="15" fill="#111">Time of a call, proved against ordinary (logarithmic; line: 10th to 90th percentile)</text>
"##
    );
    legend(&mut out);
    axis.lines(&mut out, bottom);
    for (index, row) in report.rows.iter().enumerate() {
        let y = TOP + ROW * index as f64 + 3.0;
        let (x, text_y) = (LEFT - 8.0, y + 13.0);
        let weight = if index + 1 == report.rows.len() { "bold" } else { "normal" };
        let _ = writeln!(
            out,
            r##"<text x="{x}" y="{text_y:.1}" text-anchor="end" font-weight="{weight}" fill="#222">{}</text>"##,
            row.name
        );
        bar(&mut out, &axis, row.call_by_step, y, CALL_COLOUR);
        bar(&mut out, &axis, row.run_by_step, y + BAR + 1.0, RUN_COLOUR);
    }
    out.push_str("</svg>\n");
    out
}
