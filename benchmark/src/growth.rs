//! How the cost grows: for each sample, by the length of a call and of a
//! recording; and for each register, by the size of the map.

use std::process::{Command, Stdio};
use std::time::Instant;

use crate::counting;
use crate::inputs;
use crate::programs::{Recording, MEBIBYTE};
use crate::sides::{read_by, Side, Space};
use crate::timing::least;
use crate::works::{Work, SAMPLES};

const KIBIBYTE: usize = 1 << 10;
const SMALL_MAP: usize = 16;
const REGISTERS: usize = 512;
const ROUNDS: usize = 21;
/// Counting the instructions of longer recordings would only take time.
const LONGEST_COUNTED: usize = 16 * MEBIBYTE;

pub fn measure(counts: bool) -> String {
    let head = "| what | size | ns each | instructions each |\n|---|---|---|---|\n";
    [head.into(), reads(), programs(counts), map_tests()].concat()
}

/// A recording in calls of as many samples as a call takes.
fn reads() -> String {
    let sizes = [4, 64, 1 << 10, 16 << 10, 64 << 10].map(|size| size * KIBIBYTE);
    let map = inputs::map(SMALL_MAP);
    let samples = inputs::dense(0, 0, sizes[sizes.len() - 1]);
    let mut space = Space::new(SMALL_MAP, 2 * SAMPLES + 4);
    let times = least(ROUNDS, &sizes, |&size| {
        for call in samples[..size].chunks(SAMPLES) {
            read_by(Side::Proved, &map, call, &mut space);
        }
    });
    assert_eq!(space.number, 0, "nothing is refused");
    let each = sizes.iter().zip(times);
    each.map(|(&size, time)| row("read, samples", size, Some(time / size as f64), None)).collect()
}

/// The program, less its start: what it takes on an empty recording.
fn programs(counts: bool) -> String {
    let sizes = [0, 4, 64, 1 << 10, 4 << 10, 16 << 10, 64 << 10].map(|size| size * KIBIBYTE);
    let recordings = sizes.map(|size| Recording::mixed(REGISTERS, size));
    let times = least(ROUNDS, &recordings, |recording| recording.run(Side::Proved, Stdio::null()));
    let count = |i: usize| counting::of_program(Side::Proved, &recordings[i]);
    let start = counts.then(|| count(0));
    let row_of = |i: usize| {
        let size = sizes[i];
        // Below a mebibyte starting a program takes longer than its work.
        let time = (size >= MEBIBYTE).then(|| (times[i] - times[0]) / size as f64);
        let counted = start.filter(|_| size <= LONGEST_COUNTED);
        let instructions = counted.map(|start| (count(i) - start) as f64 / size as f64);
        row("busread, samples", size, time, instructions)
    };
    (1..sizes.len()).map(row_of).collect()
}

fn map_tests() -> String {
    let works = [512, 1_024, 2_048, 4_096, 8_192].map(Work::test);
    let times = least(ROUNDS, &works, |work| work.call(Side::Proved, &mut work.space()));
    let each = works.iter().zip(times);
    each.map(|(work, time)| {
        row("map test, registers", work.units, Some(time / work.units as f64), None)
    })
    .collect()
}

fn row(what: &str, size: usize, seconds: Option<f64>, count: Option<f64>) -> String {
    let time = seconds.map_or("-".into(), |seconds| format!("{:.2}", seconds * 1e9));
    let count = count.map_or("-".into(), |count| format!("{count:.2}"));
    format!("| {what} | {size} | {time} | {count} |\n")
}

/// Where it is installed, sigrok-cli's SPI decoder on the same dense recording.
pub fn sigrok() -> String {
    let found = Command::new("sigrok-cli").arg("--version").stdout(Stdio::null()).status();
    if !found.is_ok_and(|status| status.success()) {
        return "sigrok-cli is not installed: not compared.".into();
    }
    let samples = inputs::dense(0, 0, MEBIBYTE);
    let raw = Recording::samples_only("dense-samples", &samples);
    let mut command = Command::new("sigrok-cli");
    command.args(["-I", "binary:numchannels=8:samplerate=1000000", "-i"]).arg(&raw.path);
    command.args(["-P", "spi:cs=0:clk=1:mosi=2:miso=3", "-A", "spi=mosi-data"]);
    let started = Instant::now();
    raw.finish(command.stdout(Stdio::null()));
    let decoder = started.elapsed().as_secs_f64();
    let recording = [Recording::of("dense", REGISTERS, &samples)];
    let busread = least(ROUNDS, &recording, |r| r.run(Side::Proved, Stdio::null()))[0];
    let each = |seconds: f64| seconds * 1e9 / MEBIBYTE as f64;
    format!(
        "A dense recording of 1 MiB, the start of the program included: sigrok-cli with its SPI decoder {:.0} ns a sample, busread {:.1} ns.",
        each(decoder),
        each(busread)
    )
}
