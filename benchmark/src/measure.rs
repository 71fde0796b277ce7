//! All that is measured, in one run.

use std::process::Stdio;

use crate::chart;
use crate::counting;
use crate::growth;
use crate::page;
use crate::programs::{Recording, MEBIBYTE};
use crate::setups;
use crate::sides::Side;
use crate::table::{self, Row};
use crate::timing::{alternate, Times};
use crate::works::{works, Limit, Work};

/// The registers of the maps that busread is timed with.
pub const REGISTERS: [usize; 2] = [512, 8_192];
const ROUNDS: usize = 301;
const PROGRAM_ROUNDS: usize = 11;
const LONG: usize = 64 * MEBIBYTE;
/// A count is exact, so a shorter recording does.
const COUNTED: usize = MEBIBYTE;

pub fn measure() {
    let counts = counting::installed();
    if !counts {
        println!("valgrind is not installed: no instruction counts");
    }
    let mut rows: Vec<Row> = works().map(|work| row_of_call(&work, counts)).collect();
    rows.extend(REGISTERS.map(|registers| {
        let recording = |length| Recording::mixed(registers, length);
        row_of_program(format!("busread-{registers}"), recording, counts)
    }));
    rows.push(row_of_program("busread-four-times".into(), Recording::four_times, counts));
    let tables = [
        table::of_rows(&rows),
        setups::measure(counts),
        growth::measure(counts),
        growth::sigrok() + "\n",
    ]
    .join("\n");
    println!("\n{tables}");
    page::put_tables(&tables);
    chart::draw(&rows);
    let late: Vec<_> = rows.iter().filter(|row| row.times.ratio > row.limit.most).collect();
    for row in &late {
        println!("{} takes more than its limit", row.name);
    }
    if !late.is_empty() {
        std::process::exit(1);
    }
}

fn row_of_call(work: &Work, counts: bool) -> Row {
    let (mut proved, mut second) = (work.space(), work.space());
    let times = alternate(
        ROUNDS,
        || work.call(Side::Proved, &mut proved),
        || work.call(Side::Second, &mut second),
    );
    let instructions =
        counts.then(|| [Side::Proved, Side::Second].map(|side| counting::of_call(work, side)));
    Row { name: work.name.into(), limit: work.limit, units: work.units, times, instructions }
}

fn row_of_program(name: String, recording: impl Fn(usize) -> Recording, counts: bool) -> Row {
    let times = program_times(&recording(LONG));
    let instructions = counts.then(|| {
        let recording = recording(COUNTED);
        [Side::Proved, Side::Second]
            .map(|side| counting::of_program(side, &recording) as f64 / COUNTED as f64)
    });
    let limit = Limit { most: 1.2, stretch: 1.0 };
    Row { name, limit, units: LONG, times, instructions }
}

fn program_times(recording: &Recording) -> Times {
    recording.compare();
    alternate(
        PROGRAM_ROUNDS,
        || recording.run(Side::Proved, Stdio::null()),
        || recording.run(Side::Second, Stdio::null()),
    )
}
