//! `couplingnut report` on captures made here, against the second implementation:
//! records with their samples, both stages, the registers written, and the verdict.

use std::fmt::Write as _;
use std::fs;
use std::io::Write;
use std::path::{Path, PathBuf};
use std::process::{Command, Output};

use couplingnut_tests::captures::{oversampled, Channels};
use couplingnut_tests::chip::{line, sent};
use couplingnut_tests::generate::maps::{count_of, flagged_map_of, good_entries, map_of};
use couplingnut_tests::generate::random::Random;
use couplingnut_tests::generate::traces::trace;
use couplingnut_tests::json::Json;
use second::reader::WRITE;
use second::sender::Order;
use second::verdict::{causes, frames, Recording};

const KINDS: [&str; 5] = ["blank", "read-only", "plain", "buffered", "control"];
/// The kinds that keep a value which can be wanted.
const KEEPING: std::ops::RangeInclusive<u8> = 1..=3;

fn repository() -> PathBuf {
    Path::new(env!("CARGO_MANIFEST_DIR")).join("..")
}

/// Whether the report can be made at all, and read by sigrok-cli if it has to.
fn ready(test: &str, sigrok: bool) -> bool {
    let found = |tool: &str| Command::new(tool).arg("--version").output().is_ok();
    let library = repository().join("target/lib/libcouplingnut.so.0").exists();
    let missing = match () {
        () if !found("python3") => "python3 is not installed",
        () if !library => "the shared library is not built",
        () if sigrok && !found("sigrok-cli") => "sigrok-cli is not installed",
        () => return true,
    };
    std::io::stderr().write_all(format!("skipped {test}: {missing}\n").as_bytes()).unwrap();
    false
}

/// A unit: its map, and the value that is wanted of each register, if one is.
struct Unit {
    entries: Vec<[u8; 3]>,
    flags: Option<u8>,
    wanted: Vec<Option<u8>>,
}

impl Unit {
    fn new(random: &mut Random) -> Self {
        let count = random.between(16, 48);
        let flags = random.coin().then(|| random.below(2) as u8);
        let mut entries = good_entries(random, count);
        // The table's last line says how many registers there are.
        entries[count - 1] = if count == 16 { entries[15] } else { [2, 0xFF, random.byte()] };
        Unit { entries, flags, wanted: vec![None; count] }
    }

    fn map(&self) -> Vec<u8> {
        match self.flags {
            None => map_of(&self.entries),
            Some(flags) => flagged_map_of(flags, &self.entries),
        }
    }

    /// Wishes for some registers, mostly such as come true.
    fn wish(&mut self, random: &mut Random, active: &[u8]) {
        let seldom = random.pick(&[1, 3, 12]);
        for (at, [kind, mask, default]) in self.entries.iter().enumerate() {
            if KEEPING.contains(kind) && random.one_in(2) {
                let other = random.byte() & mask | default & !mask;
                self.wanted[at] = Some(if random.one_in(20 * seldom) { other } else { active[at] });
            }
        }
    }

    fn table(&self) -> String {
        let mut text = String::new();
        for (at, [kind, mask, default]) in self.entries.iter().enumerate() {
            let kind = KINDS[usize::from(*kind)];
            let wanted = self.wanted[at].map(|byte| format!(" | {byte:02X}")).unwrap_or_default();
            writeln!(text, "{at:04X} {kind} {mask:02X} {default:02X}  Setting <{at}>{wanted}")
                .unwrap();
        }
        text
    }
}

fn reported(unit: &Unit, table: &Path, capture: &Path) -> Output {
    let mut command = Command::new("python3");
    command.arg(repository().join("tools/couplingnut")).args(["report", "--json"]);
    if let Some(flags) = unit.flags {
        command.args(["--flags", &flags.to_string()]);
    }
    command.arg(table).arg(capture).output().expect("python3 runs")
}

/// The causes of the reasons, each once, in their order.
fn told_causes(told: &Json) -> Vec<String> {
    let mut found: Vec<String> = Vec::new();
    for reason in told.at("reasons").list() {
        let cause = reason.at("cause").text().to_string();
        if !found.contains(&cause) {
            found.push(cause);
        }
    }
    found
}

fn hex(bytes: &[u8]) -> String {
    bytes.iter().map(|byte| format!("{byte:02x}")).collect()
}

/// Sets a report beside what the second implementation reads of the same samples.
fn compare(unit: &Unit, samples: &[u8], told: &Json, status: Option<i32>, case: &str) {
    let map = unit.map();
    let read = Recording::read(&map, samples);
    let records: Vec<(usize, String)> =
        read.records.iter().map(|(at, record)| (*at, line(record))).collect();
    let shown: Vec<(usize, String)> = told
        .at("records")
        .list()
        .iter()
        .map(|record| (record.list()[0].number(), record.list()[1].text().to_string()))
        .collect();
    assert_eq!(shown, records, "{case}");
    assert_eq!(told.at("stages").at("active").text(), hex(&read.active), "{case}");
    assert_eq!(told.at("stages").at("buffer").text(), hex(&read.buffer), "{case}");
    assert_eq!(told.at("counts").at("frames").number(), frames(samples), "{case}");
    assert_eq!(told.at("recording").at("samples").number(), samples.len(), "{case}");
    let written: Vec<String> = (0..count_of(&map))
        .filter(|&at| {
            let wrote = |r: &[u8]| r[0] == WRITE && matches!(r[5], 1 | 2);
            let address = |r: &[u8]| usize::from(r[1]) << 8 | usize::from(r[2]);
            read.records.iter().any(|(_, r)| wrote(r) && address(r) == at)
        })
        .map(|at| format!("0x{at:04X}"))
        .collect();
    let rows = told.at("registers").list();
    let rows = rows.iter().filter(|row| *row.at("written") == Json::Bool(true));
    let rows: Vec<String> = rows.map(|row| row.at("address").text().to_string()).collect();
    assert_eq!(rows, written, "{case}");
    let expected = causes(&map, samples, &read, &unit.wanted);
    let mut told = told_causes(told);
    // The causes of cuts stand in order of time.
    told.sort_by_key(|cause| {
        ["recording", "command", "broken", "waits", "read", "ignored", "wanted"]
            .iter()
            .position(|name| name == cause)
    });
    assert_eq!(told, expected, "{case}");
    assert_eq!(status, Some(i32::from(!expected.is_empty())), "{case}");
}

/// A set-up as a workshop sends it: writes to registers that keep them, then a
/// transfer; once in a while a run is cut, or the transfer is missing.
fn set_up(random: &mut Random, unit: &Unit) -> Vec<u8> {
    let kept = |at: &u64| matches!(unit.entries[*at as usize][0], 2 | 3);
    let places: Vec<u64> = (0..unit.entries.len() as u64).filter(kept).collect();
    let write = |start, data: &[u8]| {
        sent(&Order { direction: 0, settings: 0, start, count: data.len() as u64, data })
    };
    let mut samples = vec![1; 3];
    for _ in 0..random.between(1, 12) {
        let start = random.pick(&places);
        let mut run = write(start, &[random.byte()]);
        if random.one_in(30) {
            run.truncate(random.between(1, 48));
        }
        samples.extend([&run[..], &[1, 1, 1]].concat());
    }
    if !random.one_in(8) {
        samples.extend(write(0x000F, &[1]));
    }
    samples
}

/// One made capture, in one form, reported and compared. Says whether the unit was ready.
fn one_case(seed: u64, form: &str) -> bool {
    let mut random = Random::new(seed);
    let mut unit = Unit::new(&mut random);
    let samples = if random.coin() {
        set_up(&mut random, &unit)
    } else {
        let length = random.pick(&[60, 300, 1_500]);
        let wild = trace(&mut random, &map_of(&unit.entries), length, false);
        [&[1; 3][..], &wild, &[1; 3]].concat()
    };
    let kept = samples.len() - if random.one_in(10) { random.below(samples.len()) } else { 0 };
    let samples = &samples[..kept];
    let times = random.pick(&[1, 4, 10, 16]);
    let jitter = random.below(times);
    let samples = oversampled(&mut random, samples, times, jitter);
    let read = Recording::read(&unit.map(), &samples);
    unit.wish(&mut random, &read.active);
    let channels = {
        let count = random.pick(&[4, 8, 16, 32]);
        Channels::new(&mut random, count)
    };
    let content = match form {
        "vcd" => channels.vcd(&mut random, &samples),
        "sr" => channels.session(&mut random, &samples, 5_000),
        _ => samples.clone(),
    };
    let folder = repository().join("target/report-page");
    fs::create_dir_all(&folder).unwrap();
    let (table, capture) =
        (folder.join(format!("{form}-{seed}.txt")), folder.join(format!("{seed}.{form}")));
    fs::write(&table, unit.table()).unwrap();
    fs::write(&capture, content).unwrap();
    let output = reported(&unit, &table, &capture);
    let words = String::from_utf8_lossy(&output.stderr);
    let case = format!("{}: {words}", capture.display());
    assert_eq!(words, "", "{case}");
    let told = Json::parse(&String::from_utf8(output.stdout).unwrap());
    compare(&unit, &samples, &told, output.status.code(), &case);
    output.status.code() == Some(0)
}

fn cases(form: &str, seeds: std::ops::Range<u64>) {
    let all = seeds.clone().count();
    let ready = seeds.filter(|&seed| one_case(seed, form)).count();
    assert!((1..all).contains(&ready), "units of both kinds: {ready} of {all} are ready");
}

#[test]
fn reports_of_raw_samples_are_those_of_the_second_implementation() {
    if ready("reports_of_raw_samples", false) {
        cases("samples", 100..110);
    }
}

#[test]
fn reports_of_session_files_are_those_of_the_second_implementation() {
    if ready("reports_of_session_files", false) {
        cases("sr", 200..210);
    }
}

#[test]
fn reports_of_vcd_files_are_those_of_the_second_implementation() {
    if ready("reports_of_vcd_files", true) {
        cases("vcd", 300..310);
    }
}
