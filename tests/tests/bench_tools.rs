//! The tools around busread at a bench: mkmap, and captures that come in by
//! sigrok-cli. A tool that the machine lacks is skipped, with a line that says so.

mod captures;
mod mending;
mod rules;
mod tables;

use std::fs;
use std::io::Write;
use std::path::{Path, PathBuf};
use std::process::{Command, Output, Stdio};
use std::sync::OnceLock;

use couplingnut_tests::program::{path, run, Ended};

fn repository() -> PathBuf {
    Path::new(env!("CARGO_MANIFEST_DIR")).join("..")
}

fn example(name: &str) -> PathBuf {
    repository().join("examples").join(name)
}

/// A folder for one test's files.
fn folder(name: &str) -> PathBuf {
    let folder = repository().join("target/bench-tools").join(name);
    fs::create_dir_all(&folder).expect("a folder for the test's files");
    folder
}

/// Whether the tool is there; if not, says on standard error that the test is skipped.
fn found(tool: &str, test: &str) -> bool {
    let there = Command::new(tool).arg("--version").output().is_ok();
    if !there {
        // Past the test runner, which keeps what a passing test prints to itself.
        let words = format!("skipped {test}: {tool} is not installed\n");
        std::io::stderr().write_all(words.as_bytes()).unwrap();
    }
    there
}

fn mkmap(words: &[&str]) -> Output {
    let tool = repository().join("tools/mkmap");
    let program = path();
    Command::new("python3")
        .arg(tool)
        .arg("--busread")
        .arg(program)
        .args(words)
        .output()
        .expect("python3 runs")
}

/// mkmap on a table with these lines.
fn mkmap_of(name: &str, table: &str) -> Output {
    let file = folder("mkmap").join(name);
    fs::write(&file, table).expect("the table is written");
    mkmap(&[file.to_str().expect("a path in UTF-8")])
}

fn words(output: &Output) -> String {
    String::from_utf8_lossy(&output.stderr).into_owned()
}

/// mkmap in a folder where nothing is built.
fn mkmap_by_itself() -> &'static Path {
    static TOOL: OnceLock<PathBuf> = OnceLock::new();
    TOOL.get_or_init(|| {
        let tool = folder("alone").join("mkmap");
        fs::copy(repository().join("tools/mkmap"), &tool).expect("a copy of mkmap");
        tool
    })
}

/// That mkmap with a table on standard input.
fn mkmap_alone(options: &[&str], table: &[u8]) -> Ended {
    let mut program = Command::new("python3");
    program.arg(mkmap_by_itself()).args(options).arg("-");
    program.env("COUPLINGNUT_LIBRARY", "no-such-library");
    program.stdin(Stdio::piped()).stderr(Stdio::piped());
    run(&mut program, |mut pipe| pipe.write_all(table))
}
