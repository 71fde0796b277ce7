//! The ratios as a picture beside docs/PERFORMANCE.md.

use std::fmt::Write;
use std::fs;

use crate::programs::repository;
use crate::table::Row;

const WIDE: f64 = 720.0;
const LEFT: f64 = 150.0;
const LINE: f64 = 22.0;
const TOP: f64 = 40.0;
/// The ratio at the right edge, and how wide a ratio of 1 is.
const LAST: f64 = 2.1;
const ONE: f64 = (WIDE - LEFT - 20.0) / LAST;

pub fn draw(rows: &[Row]) {
    let path = repository().join("docs/performance.svg");
    fs::write(&path, picture(rows)).expect("docs/ can be written");
    println!("drawn: docs/performance.svg");
}

fn picture(rows: &[Row]) -> String {
    let tall = TOP + LINE * rows.len() as f64 + 30.0;
    let mut svg = format!(
        "<svg xmlns=\"http://www.w3.org/2000/svg\" viewBox=\"0 0 {WIDE} {tall}\" font-family=\"sans-serif\" font-size=\"12\">\n\
         <rect width=\"{WIDE}\" height=\"{tall}\" fill=\"#ffffff\"/>\n\
         <text x=\"{LEFT}\" y=\"18\">time as a part of the second implementation's; the line is the limit</text>\n"
    );
    for tick in [0.0, 0.5, 1.0, 1.5, 2.0] {
        let x = LEFT + ONE * tick;
        let bottom = tall - 24.0;
        writeln!(
            svg,
            "<line x1=\"{x:.1}\" y1=\"28\" x2=\"{x:.1}\" y2=\"{bottom}\" stroke=\"#d0d0d0\"/>"
        )
        .expect("a string grows");
        writeln!(
            svg,
            "<text x=\"{x:.1}\" y=\"{}\" text-anchor=\"middle\">{tick}</text>",
            tall - 8.0
        )
        .expect("a string grows");
    }
    for (i, row) in rows.iter().enumerate() {
        draw_row(&mut svg, row, TOP + LINE * i as f64);
    }
    svg + "</svg>\n"
}

fn draw_row(svg: &mut String, row: &Row, y: f64) {
    let (ratio, most) = (row.times.ratio, row.limit.most);
    let (width, limit) = (ONE * ratio.min(LAST), LEFT + ONE * most);
    let colour = if ratio <= most { "#2f6f9f" } else { "#b0413e" };
    let (bar, text) = (LINE - 8.0, y + LINE - 11.0);
    let mut parts = vec![
        format!("<text x=\"{}\" y=\"{text}\" text-anchor=\"end\">{}</text>", LEFT - 8.0, row.name),
        format!("<rect x=\"{LEFT}\" y=\"{y}\" width=\"{width:.1}\" height=\"{bar}\" fill=\"{colour}\"/>"),
        format!("<text x=\"{}\" y=\"{text}\" fill=\"#ffffff\">{ratio:.2}</text>", LEFT + 5.0),
    ];
    if most.is_finite() {
        let (top, bottom) = (y - 2.0, y + bar + 2.0);
        parts.push(format!("<line x1=\"{limit:.1}\" y1=\"{top}\" x2=\"{limit:.1}\" y2=\"{bottom}\" stroke=\"#000000\" stroke-width=\"2\"/>"));
    }
    for part in parts {
        svg.push_str(&part);
        svg.push('\n');
    }
}
