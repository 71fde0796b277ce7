//! Instructions, by valgrind's callgrind: the same in every run, however busy
//! the machine is.

use std::process::{Command, Stdio};

use crate::programs::{program, Recording};
use crate::sides::Side;
use crate::works::Work;

pub fn installed() -> bool {
    let version = Command::new("valgrind").arg("--version").stdout(Stdio::null()).status();
    version.is_ok_and(|status| status.success())
}

/// Instructions of one call, for each of its units.
pub fn of_call(work: &Work, side: Side) -> f64 {
    let this = std::env::current_exe().expect("this program has a path");
    let mut command = callgrind();
    command.arg(format!("--toggle-collect={}", work.symbol(side)));
    command.arg(this).args(["call", work.name, &format!("{side:?}")]);
    collected(&mut command) as f64 / work.units as f64
}

/// Instructions of a whole program on a recording.
pub fn of_program(side: Side, recording: &Recording) -> u64 {
    let input = std::fs::File::open(&recording.path).expect("the recording was written");
    let mut command = callgrind();
    command.arg(program(side)).stdin(input);
    collected(&mut command)
}

fn callgrind() -> Command {
    let mut command = Command::new("valgrind");
    command.args(["--tool=callgrind", "--callgrind-out-file=/dev/null"]).stdout(Stdio::null());
    command
}

/// The count that callgrind closes with.
fn collected(command: &mut Command) -> u64 {
    let output = command.stderr(Stdio::piped()).output().expect("valgrind runs");
    let words = String::from_utf8_lossy(&output.stderr);
    let count = words.lines().find_map(|line| line.split_once("Collected : "));
    let (_, count) = count.unwrap_or_else(|| panic!("{command:?}: {words}"));
    count.trim().parse().expect("a count")
}
