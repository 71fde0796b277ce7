//! Running `busread` from a test, with an eye on the clock.

use std::fs::{self, File};
use std::io::{self, Read, Seek, Write};
use std::path::{Path, PathBuf};
use std::process::{Child, ChildStdin, Command, ExitStatus, Stdio};
use std::sync::atomic::{AtomicBool, AtomicU64, Ordering};
use std::sync::Mutex;
use std::thread;
use std::time::{Duration, Instant};

use crate::generate::random::Random;

/// No run of the program may take longer.
const LIMIT: Duration = Duration::from_secs(60);

/// What a run of the program came to.
pub struct Ended {
    pub output: Vec<u8>,
    /// What it wrote to standard error.
    pub words: String,
    pub status: ExitStatus,
}

/// How an input reaches standard input.
pub enum Feed {
    File,
    Pipe,
    /// Through a pipe, in portions of 1 to 700 bytes.
    Portions(Random),
}

/// The program, from the environment variable BUSREAD or where the build puts
/// it. Without it no test that needs it passes.
pub fn path() -> PathBuf {
    found("BUSREAD", "../target/bin/busread", "make build")
}

pub fn busread() -> Command {
    Command::new(path())
}

/// The program in C that ends with a status, from BUSREAD_C or where the build
/// puts it.
pub fn busread_with_status() -> Command {
    Command::new(found("BUSREAD_C", "../target/host/busread", "make build"))
}

fn found(variable: &str, built: &str, build: &str) -> PathBuf {
    let built = Path::new(env!("CARGO_MANIFEST_DIR")).join(built);
    let path = std::env::var_os(variable).map_or(built, PathBuf::from);
    assert!(path.is_file(), "{} is missing; build it first: {build}", path.display());
    path
}

/// Runs the program on a whole input; its words are not looked at.
pub fn output_of(program: &mut Command, input: &[u8], feed: Feed) -> Ended {
    program.stderr(Stdio::null());
    match feed {
        Feed::File => {
            program.stdin(file_with(input).expect("a file for the input"));
            run(program, |_| Ok(()))
        }
        Feed::Pipe => run(program.stdin(Stdio::piped()), |mut pipe| pipe.write_all(input)),
        Feed::Portions(random) => {
            run(program.stdin(Stdio::piped()), |pipe| write_portions(pipe, input, random))
        }
    }
}

/// Runs the program to its end. What is fed may be more than it cares to read.
pub fn run(program: &mut Command, feed: impl FnOnce(ChildStdin) -> io::Result<()> + Send) -> Ended {
    let mut child = program.stdout(Stdio::piped()).spawn().expect("the program starts");
    let (stdin, stderr) = (child.stdin.take(), child.stderr.take());
    let mut stdout = child.stdout.take().expect("standard output is a pipe");
    let (mut output, mut words) = (Vec::new(), String::new());
    let status = watched(child, || {
        thread::scope(|scope| {
            if let Some(pipe) = stdin {
                scope.spawn(|| feed(pipe).or_else(unless_unread));
            }
            let told = stderr.map(|pipe| scope.spawn(|| io::read_to_string(pipe)));
            stdout.read_to_end(&mut output).expect("standard output can be read");
            if let Some(told) = told {
                words = told.join().unwrap().expect("standard error can be read");
            }
        });
    });
    Ended { output, words, status }
}

/// A program may end without reading all of its input, and refuses so.
fn unless_unread(error: io::Error) -> io::Result<()> {
    match error.kind() {
        io::ErrorKind::BrokenPipe => Ok(()),
        _ => panic!("the input could not be fed: {error}"),
    }
}

/// Does the work with a running program, waits for its end, and ends it by
/// force when the limit is over.
pub fn watched(child: Child, work: impl FnOnce()) -> ExitStatus {
    let child = Mutex::new(child);
    let ended = AtomicBool::new(false);
    let started = Instant::now();
    let status = thread::scope(|scope| {
        let watch = scope.spawn(|| {
            while !ended.load(Ordering::Acquire) {
                match LIMIT.checked_sub(started.elapsed()) {
                    Some(left) => thread::park_timeout(left),
                    None => return child.lock().unwrap().kill().expect("it can be ended"),
                }
            }
        });
        work();
        let status = wait(&child);
        ended.store(true, Ordering::Release);
        watch.thread().unpark();
        status
    });
    assert!(started.elapsed() < LIMIT, "the program hung and was ended after {LIMIT:?}");
    status
}

/// Waits without holding on to the child, so that the watch can end it.
fn wait(child: &Mutex<Child>) -> ExitStatus {
    loop {
        let status = child.lock().unwrap().try_wait().expect("the program can be waited for");
        match status {
            Some(status) => return status,
            None => thread::sleep(Duration::from_micros(20)),
        }
    }
}

/// An open file that holds the input and has no name any more.
fn file_with(input: &[u8]) -> io::Result<File> {
    static FILES: AtomicU64 = AtomicU64::new(0);
    let number = FILES.fetch_add(1, Ordering::Relaxed);
    let name = format!("busread-input-{}-{number}", std::process::id());
    let path = std::env::temp_dir().join(name);
    let mut file = File::options().read(true).write(true).create_new(true).open(&path)?;
    fs::remove_file(&path)?;
    file.write_all(input)?;
    file.rewind()?;
    Ok(file)
}

/// Portions small enough to part the map, a piece and even a length field; the
/// pauses let the program see a pipe that is empty but not at its end.
fn write_portions(mut pipe: ChildStdin, input: &[u8], mut random: Random) -> io::Result<()> {
    let longest = random.pick(&[3, 50, 700]);
    let mut rest = input;
    while !rest.is_empty() {
        // Long inputs in tiny portions would only take time.
        let longest = if rest.len() > 3_000 { 700 } else { longest };
        let (portion, after) = rest.split_at(random.between(1, longest).min(rest.len()));
        pipe.write_all(portion)?;
        pipe.flush()?;
        if random.one_in(20) {
            thread::sleep(Duration::from_micros(50));
        }
        rest = after;
    }
    Ok(())
}
