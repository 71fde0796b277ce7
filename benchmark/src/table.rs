//! The table of ratios.

use std::fmt::Write;

use crate::timing::Times;
use crate::works::Limit;

pub struct Row {
    pub name: String,
    pub limit: Limit,
    /// Samples, or registers of a map: the costs are divided by them.
    pub units: usize,
    pub times: Times,
    /// For each unit, of the proved side and of the second.
    pub instructions: Option<[f64; 2]>,
}

pub fn of_rows(rows: &[Row]) -> String {
    let mut text = String::from(
        "| work | ratio | at most | stretch | ns proved | ns second | instructions proved | instructions second |\n\
         |---|---|---|---|---|---|---|---|\n",
    );
    for row in rows {
        let [most, stretch] = [row.limit.most, row.limit.stretch].map(limit);
        let nanoseconds = |seconds: f64| seconds * 1e9 / row.units as f64;
        let counts = match row.instructions {
            Some([proved, second]) => format!("{proved:.1} | {second:.1}"),
            None => "- | -".into(),
        };
        let (proved, second) = (nanoseconds(row.times.proved), nanoseconds(row.times.second));
        writeln!(
            text,
            "| {} | **{:.2}** | {most} | {stretch} | {proved:.2} | {second:.2} | {counts} |",
            row.name, row.times.ratio
        )
        .expect("a string grows");
    }
    text
}

fn limit(ratio: f64) -> String {
    if ratio.is_finite() {
        format!("{ratio:.2}")
    } else {
        "-".into()
    }
}
