//! The benchmark: the proved reader, sender and program against the second
//! implementation of tests/, on the same inputs and alternately in one run.
//!
//!     check                  both sides leave the same; nothing is timed
//!     measure                that, then the tables and the picture in docs/
//!     call WORK SIDE         one call, for an instruction count

#![deny(warnings, unsafe_code)]

mod chart;
mod counting;
mod growth;
mod inputs;
mod measure;
mod page;
mod programs;
mod setups;
mod several;
mod sides;
mod table;
mod timing;
mod works;

use programs::{Recording, MEBIBYTE};
use sides::Side;
use works::{work, works};

const USAGE: &str =
    "say one of: check; measure; call WORK SIDE (a work of the table, Proved or Second)";

fn main() {
    let words: Vec<String> = std::env::args().skip(1).collect();
    match words.iter().map(String::as_str).collect::<Vec<_>>()[..] {
        ["check"] => check(),
        ["measure"] => {
            check();
            measure::measure();
        }
        ["call", work, side] => call(work, side),
        _ => {
            eprintln!("{USAGE}");
            std::process::exit(2);
        }
    }
}

/// Both sides leave the same; a line for each work says so.
fn check() {
    for work in works() {
        work.compare();
        println!("ok {}: the same answers, registers, records and samples", work.name);
    }
    for registers in measure::REGISTERS {
        Recording::mixed(registers, MEBIBYTE + 1).compare();
        println!("ok busread-{registers}: the same text");
    }
    Recording::four_times(MEBIBYTE + 1).compare();
    println!("ok busread-four-times: the same text");
}

fn call(name: &str, side: &str) {
    let side = match side {
        "Proved" => Side::Proved,
        "Second" => Side::Second,
        _ => panic!("{USAGE}"),
    };
    let work = work(name, 1).expect(USAGE);
    work.call(side, &mut work.space());
}
