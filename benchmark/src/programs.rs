//! The two programs on the same recording: busread, and the one built
//! beside this one.

use std::fs::{self, File};
use std::io::{self, BufReader, Read};
use std::path::{Path, PathBuf};
use std::process::{Command, Stdio};

use crate::inputs;
use crate::sides::Side;

pub const MEBIBYTE: usize = 1 << 20;

/// A file with a map and the samples after it.
pub struct Recording {
    pub path: PathBuf,
}

impl Recording {
    pub fn mixed(registers: usize, samples: usize) -> Self {
        Self::of(&format!("mixed-{registers}-{samples}"), registers, &inputs::mixed(0, samples))
    }

    /// Dense frames, sampled four times as often.
    pub fn four_times(samples: usize) -> Self {
        let name = format!("four-times-{samples}");
        Self::of(&name, 512, &inputs::oversampled(0, 4.0, samples))
    }

    pub fn of(name: &str, registers: usize, samples: &[u8]) -> Self {
        Self::samples_only(name, &[&inputs::map(registers), samples].concat())
    }

    /// What another decoder is given, which knows no map.
    pub fn samples_only(name: &str, samples: &[u8]) -> Self {
        let path = folder().join(name);
        fs::create_dir_all(folder()).expect("a folder for recordings");
        fs::write(&path, samples).expect("room for the recording");
        Recording { path }
    }

    /// Runs a side's program on the recording.
    pub fn run(&self, side: Side, output: Stdio) {
        let mut command = Command::new(program(side));
        self.finish(command.stdout(output));
    }

    /// Runs a command with the recording for its standard input.
    pub fn finish(&self, command: &mut Command) {
        let input = File::open(&self.path).expect("the recording was written");
        let status = command.stdin(input).status().expect("the program starts");
        assert!(status.success(), "{command:?}: {status}");
    }

    /// What the two programs print on it is the same, byte for byte.
    pub fn compare(&self) {
        let [proved, second] = [Side::Proved, Side::Second].map(|side| {
            let path = folder().join(format!("{side:?}.output"));
            self.run(side, File::create(&path).expect("room for the output").into());
            path
        });
        assert!(same(&proved, &second).expect("both can be read"), "the two programs differ");
        let length = fs::metadata(&proved).expect("it was written").len();
        assert!(length > 0, "nothing was printed");
    }
}

impl Drop for Recording {
    fn drop(&mut self) {
        // What stays behind is only space.
        let _ = fs::remove_file(&self.path);
    }
}

pub fn program(side: Side) -> PathBuf {
    match side {
        Side::Proved => repository().join("target/bin/busread"),
        Side::Second => {
            std::env::current_exe().expect("this program has a path").with_file_name("second")
        }
    }
}

pub fn repository() -> PathBuf {
    Path::new(env!("CARGO_MANIFEST_DIR")).join("..")
}

fn folder() -> PathBuf {
    repository().join("target/benchmark")
}

fn same(left: &Path, right: &Path) -> io::Result<bool> {
    let (left, right) = (File::open(left)?, File::open(right)?);
    if left.metadata()?.len() != right.metadata()?.len() {
        return Ok(false);
    }
    for (a, b) in BufReader::new(left).bytes().zip(BufReader::new(right).bytes()) {
        if a? != b? {
            return Ok(false);
        }
    }
    Ok(true)
}
