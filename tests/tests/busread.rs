//! The program busread against the second implementation, byte for byte, and
//! what it does when its input or its output fails.

use std::fs::{self, File};
use std::io::{self, Read, Write};
use std::os::fd::OwnedFd;
use std::os::unix::net::UnixStream;
use std::os::unix::process::ExitStatusExt;
use std::path::PathBuf;
use std::process::{ChildStdout, Command, Stdio};
use std::sync::atomic::{AtomicU64, Ordering};
use std::sync::Mutex;
use std::thread;

use couplingnut_tests::chip::sent;
use couplingnut_tests::environment::{differences, number_from};
use couplingnut_tests::generate::maps::{good_map, simple_map};
use couplingnut_tests::generate::random::Random;
use couplingnut_tests::generate::{self, traces};
use couplingnut_tests::program::{self, busread, busread_with_status, output_of, run, Ended, Feed};
use second::report::{report, report_to};
use second::sender::Order;

const SIGPIPE: i32 = 13;
const WORKERS: usize = 2;
/// Inputs for the comparison of the two programs called busread.
const STATUS_CASES: u64 = 500;
/// After so many differences the rest of the cases is left alone.
const ENOUGH: usize = 5;

#[test]
fn prints_what_the_second_implementation_prints() {
    program::path();
    let (first, cases) = (number_from("SEED", 0), number_from("CASES", 20_000));
    assert!(cases > 0, "no case is no test");
    let end = first + cases;
    let next = AtomicU64::new(first);
    let differences = Mutex::new(Vec::new());
    thread::scope(|scope| {
        for _ in 0..WORKERS {
            scope.spawn(|| loop {
                let seed = next.fetch_add(1, Ordering::Relaxed);
                if seed >= end || differences.lock().unwrap().len() >= ENOUGH {
                    break;
                }
                if let Err(difference) = compare(seed) {
                    differences.lock().unwrap().push(difference);
                }
            });
        }
    });
    let differences = differences.into_inner().unwrap();
    assert!(differences.is_empty(), "{}", differences.join("\n"));
}

/// Runs one generated input through both; a difference is kept and told.
fn compare(seed: u64) -> Result<(), String> {
    let input = generate::input(seed);
    let feed = match seed % 4 {
        0 => Feed::Portions(Random::new(seed)),
        1 => Feed::File,
        _ => Feed::Pipe,
    };
    let expected = report(&input);
    let ended = output_of(&mut busread(), &input, feed);
    if ended.output == expected && ended_well(&ended) {
        return Ok(());
    }
    let kept = keep(seed, &input, &expected, &ended.output).expect("the difference can be kept");
    Err(format!(
        "seed {seed}: {}, {}; input and both outputs are in {}",
        first_difference(&ended.output, &expected),
        ended.status,
        kept.display()
    ))
}

/// A whole report is a success; a refusal may say otherwise, but no program
/// dies of a signal.
fn ended_well(ended: &Ended) -> bool {
    let refused = last_line(&ended.output).starts_with("refused");
    ended.status.success() || refused && ended.status.code().is_some()
}

fn last_line(output: &[u8]) -> String {
    String::from_utf8_lossy(output).lines().last().unwrap_or("").to_string()
}

fn first_difference(output: &[u8], expected: &[u8]) -> String {
    let (output, expected) = (String::from_utf8_lossy(output), String::from_utf8_lossy(expected));
    let (output, expected): (Vec<_>, Vec<_>) =
        (output.lines().collect(), expected.lines().collect());
    let lines = output.len().max(expected.len());
    match (0..lines).find(|&i| output.get(i) != expected.get(i)) {
        Some(i) => {
            let line = |lines: &[&str]| lines.get(i).map_or("missing".into(), |l| format!("`{l}`"));
            format!("line {} is {}, expected {}", i + 1, line(&output), line(&expected))
        }
        None => "the lines are the same".to_string(),
    }
}

fn keep(seed: u64, input: &[u8], expected: &[u8], output: &[u8]) -> io::Result<PathBuf> {
    let path = differences().join(format!("seed-{seed}.input"));
    fs::write(&path, input)?;
    fs::write(path.with_extension("expected"), expected)?;
    fs::write(path.with_extension("output"), output)?;
    Ok(path)
}

/// The program in C prints what the other one prints, byte for byte, and ends
/// with 1 exactly where that is a refusal.
#[test]
fn with_a_status_prints_the_same() {
    let mut refused = 0;
    for seed in 0..STATUS_CASES {
        let input = generate::input(seed);
        let expected = output_of(&mut busread(), &input, Feed::File);
        let feed = if seed % 2 == 0 { Feed::File } else { Feed::Portions(Random::new(seed)) };
        let ended = output_of(&mut busread_with_status(), &input, feed);
        let told = || first_difference(&ended.output, &expected.output);
        assert!(ended.output == expected.output, "seed {seed}: {}", told());
        let refusal = i32::from(last_line(&expected.output).starts_with("refused"));
        assert_eq!(ended.status.code(), Some(refusal), "seed {seed}");
        refused += refusal;
    }
    assert!(0 < refused && refused < STATUS_CASES as i32, "{refused} refusals");
}

/// A map and its samples in two files are read as the two joined.
#[test]
fn with_a_status_reads_two_files() {
    let folder = std::env::temp_dir().join(format!("busread-files-{}", std::process::id()));
    fs::create_dir_all(&folder).expect("a folder for the files");
    let (map, samples) = (folder.join("map"), folder.join("samples"));
    for seed in 0..40 {
        let mut random = Random::new(seed);
        let bytes = good_map(&mut random, 16 + 5 * seed as usize);
        let trace = traces::trace(&mut random, &bytes, 9_000, seed % 2 == 0);
        fs::write(&map, &bytes).expect("the map's file");
        fs::write(&samples, &trace).expect("the samples' file");
        let ended = output_of(busread_with_status().args([&map, &samples]), &[], Feed::Pipe);
        assert!(ended.output == report(&[bytes, trace].concat()), "seed {seed}");
        assert!(ended.status.success(), "seed {seed}: {}", ended.status);
    }
    fs::remove_dir_all(&folder).expect("the files go");
}

/// Its buffers together stay below 64 KiB, and little else is on the stack.
///
/// They take 65,473 bytes. Measured at n = 8,192, 150 runs each: the program
/// always ends well on 72 KiB and never on 62 (the system puts the start of the
/// stack up to 8 KiB in). So 18 KiB more of buffers would never pass here, and
/// twice the buffers would miss it by 44 KiB.
#[test]
fn runs_on_a_stack_of_80_kib() {
    let mut random = Random::new(256);
    let mut input = good_map(&mut random, 8_192);
    input.extend(traces::trace(&mut random, &input, 30_000, false));
    let mut limited = Command::new("sh");
    limited.args(["-c", "ulimit -s 80 && exec \"$0\""]).arg(program::path()).env_clear();
    let ended = output_of(&mut limited, &input, Feed::Pipe);
    assert!(ended.status.success(), "{}", ended.status);
    assert_eq!(ended.output, report(&input));
}

/// A map and a trace of any length, made on the way.
struct Recording {
    map: Vec<u8>,
    /// Repeated without end. Its length is no multiple of a piece, so that a
    /// piece begins anywhere in it.
    trace: Vec<u8>,
    /// Bytes that have been read, and that are to be read in all.
    at: usize,
    end: usize,
}

impl Recording {
    fn new(seed: u64, samples: usize) -> Self {
        let mut random = Random::new(seed);
        let map = good_map(&mut random, 512);
        let trace = traces::trace(&mut random, &map, 1_000_003, true);
        let end = map.len() + samples;
        Recording { map, trace, at: 0, end }
    }
}

impl Read for Recording {
    fn read(&mut self, space: &mut [u8]) -> io::Result<usize> {
        let here = match self.at.checked_sub(self.map.len()) {
            None => &self.map[self.at..],
            Some(sample) => &self.trace[sample % self.trace.len()..],
        };
        let length = here.len().min(space.len()).min(self.end - self.at);
        space[..length].copy_from_slice(&here[..length]);
        self.at += length;
        Ok(length)
    }
}

/// Takes the expected text and holds the program's output against it.
struct Comparing<R> {
    output: R,
    compared: usize,
}

impl<R: Read> Write for Comparing<R> {
    fn write(&mut self, expected: &[u8]) -> io::Result<usize> {
        let mut output = vec![0; expected.len()];
        self.output.read_exact(&mut output)?;
        let told = || first_difference(&output, expected);
        assert!(output == expected, "after {} bytes: {}", self.compared, told());
        self.compared += expected.len();
        Ok(expected.len())
    }

    fn flush(&mut self) -> io::Result<()> {
        Ok(())
    }
}

/// 64 MiB of samples, neither the input nor the output ever whole in memory.
#[test]
fn reads_a_long_recording() {
    const SAMPLES: usize = 64 << 20;
    let mut program = busread();
    program.stdin(Stdio::piped()).stdout(Stdio::piped());
    let mut child = program.spawn().expect("the program starts");
    let mut stdin = child.stdin.take().unwrap();
    let mut stdout = child.stdout.take().unwrap();
    let status = program::watched(child, || {
        thread::scope(|scope| {
            scope.spawn(move || io::copy(&mut Recording::new(64, SAMPLES), &mut stdin));
            let expected = Recording::new(64, SAMPLES);
            let comparing = Comparing { output: &mut stdout, compared: 0 };
            report_to(expected, comparing).expect("the output is as long as the expected text");
        });
        let mut more = Vec::new();
        stdout.read_to_end(&mut more).unwrap();
        assert!(more.is_empty(), "{} bytes come after the last line", more.len());
    });
    assert!(status.success(), "{status}");
}

#[test]
fn refuses_an_input_that_ends_inside_the_map() {
    let mut random = Random::new(2);
    for count in [16, 17, 300] {
        let map = good_map(&mut random, count);
        let ends = (0..7).chain([map.len() / 2, map.len() - 3, map.len() - 1]);
        for end in ends {
            let ended = output_of(&mut busread(), &map[..end], Feed::Pipe);
            assert_eq!(ended.output, b"refused 2\n", "{end} of {} bytes", map.len());
        }
        let ended = output_of(&mut busread(), &map, Feed::Pipe);
        assert_eq!(ended.output, format!("map {count}\nrecords 0 samples 0 slow 0\n").into_bytes());
    }
}

#[test]
fn refuses_an_empty_input() {
    for feed in [Feed::File, Feed::Pipe] {
        assert_eq!(output_of(&mut busread(), &[], feed).output, b"refused 2\n");
    }
}

/// The samples of a streaming write, which leave one line.
fn scratch_write() -> Vec<u8> {
    sent(&Order { direction: 0, settings: 0, start: 0x000A, count: 1, data: &[0x3C] })
}

/// What an input error leaves: words, and no line that counts what was read.
fn assert_input_error(ended: &Ended, expected: &[u8]) {
    let output = String::from_utf8_lossy(&ended.output);
    assert!(!output.contains("records"), "a count line after an input error: {output}");
    assert!(expected.starts_with(&ended.output), "lines of their own: {output}");
    assert!(!ended.words.trim().is_empty(), "no word on standard error");
    assert!(ended.status.code().is_some(), "{}", ended.status);
}

#[test]
fn says_that_a_directory_cannot_be_read() {
    let folder = File::open(env!("CARGO_MANIFEST_DIR")).unwrap();
    let ended = run(busread().stdin(folder).stderr(Stdio::piped()), |_| Ok(()));
    assert_input_error(&ended, b"");
}

#[test]
fn says_that_a_closed_input_cannot_be_read() {
    let mut closed = Command::new("sh");
    closed.args(["-c", "exec \"$0\" <&-"]).arg(program::path());
    let ended = run(closed.stderr(Stdio::piped()), |_| Ok(()));
    assert_input_error(&ended, b"");
}

/// The far end of a socket that goes away with bytes unread resets it: what was
/// sent still arrives, and then an error, not the end.
#[test]
fn says_that_the_input_failed_on_the_way() {
    let map = simple_map(16);
    let parts = [0, 1, 40, map.len(), map.len() + 51, map.len() + 51 * 100];
    let input = [map, scratch_write().repeat(100)].concat();
    for part in parts {
        let (near, mut far) = UnixStream::pair().unwrap();
        (&near).write_all(b"never read").unwrap();
        far.write_all(&input[..part]).unwrap();
        drop(far);
        let mut program = busread();
        program.stdin(OwnedFd::from(near)).stderr(Stdio::piped());
        let ended = run(&mut program, |_| Ok(()));
        assert_input_error(&ended, &report(&input));
    }
}

/// A map with frames enough for more output than any pipe holds.
fn much() -> Vec<u8> {
    [simple_map(16), scratch_write().repeat(20_000)].concat()
}

/// Runs the program on much input, its output read by `reader` and not to the
/// end; gives its words and its status.
fn cut_off(program: &mut Command, reader: impl FnOnce(Option<ChildStdout>)) -> Ended {
    program.stdin(Stdio::piped()).stderr(Stdio::piped());
    let mut child = program.spawn().expect("the program starts");
    let (stdin, stdout) = (child.stdin.take(), child.stdout.take());
    let (mut stdin, mut stderr) = (stdin.unwrap(), child.stderr.take().unwrap());
    let mut words = String::new();
    let status = program::watched(child, || {
        thread::scope(|scope| {
            scope.spawn(move || stdin.write_all(&much()));
            reader(stdout);
            stderr.read_to_string(&mut words).expect("standard error can be read");
        });
    });
    Ended { output: Vec::new(), words, status }
}

fn read_first_line(stdout: Option<ChildStdout>) {
    let mut first = [0; 7];
    stdout.unwrap().read_exact(&mut first).expect("the output begins");
    assert_eq!(&first, b"map 16\n");
}

#[test]
fn says_that_its_output_is_closed() {
    let mut told = Command::new("sh");
    told.args(["-c", "trap '' PIPE; exec \"$0\""]).arg(program::path()).stdout(Stdio::piped());
    let ended = cut_off(&mut told, read_first_line);
    assert!(!ended.words.trim().is_empty(), "no word on standard error; {}", ended.status);
    assert!(ended.status.code().is_some(), "{}", ended.status);
}

/// Where nobody has asked to be told of a closed pipe, the system's signal may
/// end the program before it can say anything.
#[test]
fn ends_when_its_reader_has_gone() {
    let ended = cut_off(busread().stdout(Stdio::piped()), read_first_line);
    let by_signal = ended.status.signal() == Some(SIGPIPE);
    assert!(by_signal || !ended.words.trim().is_empty(), "no word; {}", ended.status);
}

#[test]
fn says_that_its_output_is_full() {
    let full = File::options().write(true).open("/dev/full").unwrap();
    let ended = cut_off(busread().stdout(full), drop);
    assert!(!ended.words.trim().is_empty(), "no word on standard error; {}", ended.status);
    assert!(ended.status.code().is_some(), "{}", ended.status);
}
