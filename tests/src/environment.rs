//! What the environment says of a test run, and where differences are kept.

use std::fs::{self, File};
use std::os::unix::fs::FileExt;
use std::path::{Path, PathBuf};

/// A number from the environment, or this one.
pub fn number_from(variable: &str, otherwise: u64) -> u64 {
    match std::env::var(variable) {
        Ok(text) => text.parse().unwrap_or_else(|_| panic!("{variable} is no number: {text}")),
        Err(_) => otherwise,
    }
}

/// The folder of what two implementations did not agree on.
pub fn differences() -> PathBuf {
    let folder = Path::new(env!("CARGO_MANIFEST_DIR")).join("../target/differences");
    fs::create_dir_all(&folder).expect("the folder for differences can be made");
    folder
}

/// The file that a test, named by its path, keeps for one purpose.
pub fn difference_path(test: &str, purpose: &str) -> PathBuf {
    differences().join(format!("{}-{purpose}.txt", test.replace("::", "-")))
}

/// A test, by its path, and the seed of its present case. While it runs a file holds that
/// seed, for a call that kills the test.
pub struct Running {
    test: &'static str,
    seed: u64,
    path: PathBuf,
    file: File,
}

impl Running {
    pub fn new(test: &'static str) -> Self {
        let path = difference_path(test, "running");
        let file = File::create(&path).expect("a file for the present seed");
        Running { test, seed: 0, path, file }
    }

    pub fn begin(&mut self, seed: u64) {
        self.seed = seed;
        let text = format!("SEED={seed:<20}\n");
        self.file.write_all_at(text.as_bytes(), 0).expect("the present seed can be kept");
    }

    /// Keeps a difference of the present case, and fails.
    pub fn differ(&self, told: &str, listing: &str) -> ! {
        differ(self.test, self.seed, told, listing)
    }
}

impl Drop for Running {
    /// Nothing is running any more; a test that was killed does not come here.
    fn drop(&mut self) {
        fs::remove_file(&self.path).ok();
    }
}

/// Keeps what two implementations did not agree on, with the command that shows
/// it again, and fails.
pub fn differ(test: &str, seed: u64, told: &str, listing: &str) -> ! {
    let path = difference_path(test, &format!("seed-{seed}"));
    let again = format!("SEED={seed} CALLS=1 cargo test -p couplingnut-tests {test}");
    fs::write(&path, format!("{again}\n{told}\n\n{listing}")).expect("a difference can be kept");
    panic!("{test}, seed {seed}: {told}; all of it is in {}", path.display())
}
