//! Captures of a logic analyser, made for tests: lines among other channels that
//! move, sampled more often than the lines change, as a VCD or a .sr file.

use std::fmt::Write;

use crate::generate::random::Random;

const LINES: [&str; 4] = ["CSB", "SCLK", "SDIO", "SDO"];

/// An analyser's channels by name, the lines somewhere among them.
pub struct Channels {
    names: Vec<String>,
}

impl Channels {
    /// So many channels, at least four, in any order.
    pub fn new(random: &mut Random, count: usize) -> Self {
        let mut names: Vec<String> = LINES.iter().map(|line| line.to_string()).collect();
        names.extend((LINES.len()..count).map(|at| format!("D{at}")));
        for last in (1..names.len()).rev() {
            let other = random.below(last + 1);
            names.swap(last, other);
        }
        Channels { names }
    }

    /// The levels of all channels, a number for each sample.
    fn levels(&self, random: &mut Random, samples: &[u8]) -> Vec<u32> {
        let place = |line: &str| self.names.iter().position(|name| name == line).expect("a line");
        let places = LINES.map(place);
        let lines: u32 = places.iter().map(|at| 1 << at).sum();
        let mut others = 0;
        let level = |sample: &u8| {
            if random.one_in(3) {
                others ^= (1 << random.below(self.names.len())) & !lines;
            }
            let bit = |(line, &at): (usize, &usize)| u32::from(sample >> line & 1) << at;
            others | places.iter().enumerate().map(bit).sum::<u32>()
        };
        samples.iter().map(level).collect()
    }

    /// A VCD file, a sample a microsecond.
    pub fn vcd(&self, random: &mut Random, samples: &[u8]) -> Vec<u8> {
        let mark = |at: usize| char::from(b'!' + at as u8);
        let mut text = String::from("$timescale 1 us $end\n$scope module made $end\n");
        for (at, name) in self.names.iter().enumerate() {
            writeln!(text, "$var wire 1 {} {name} $end", mark(at)).unwrap();
        }
        text.push_str("$upscope $end\n$enddefinitions $end\n");
        let mut last = None;
        for (time, level) in self.levels(random, samples).into_iter().enumerate() {
            let changed = last.map_or(u32::MAX, |last: u32| last ^ level);
            write!(text, "#{time}").unwrap();
            for at in (0..self.names.len()).filter(|at| changed >> at & 1 == 1) {
                write!(text, " {}{}", level >> at & 1, mark(at)).unwrap();
            }
            text.push('\n');
            last = Some(level);
        }
        writeln!(text, "#{}", samples.len()).unwrap();
        text.into_bytes()
    }

    /// A .sr file at 1 MHz, its samples in pieces of this many.
    pub fn session(&self, random: &mut Random, samples: &[u8], piece: usize) -> Vec<u8> {
        let width = self.names.len().div_ceil(8);
        let units: Vec<u8> = self
            .levels(random, samples)
            .iter()
            .flat_map(|level| level.to_le_bytes()[..width].to_vec())
            .collect();
        let mut about = format!(
            "[global]\nsigrok version=0.5.2\n\n[device 1]\ncapturefile=logic-1\n\
             total probes={}\nsamplerate=1 MHz\ntotal analog=0\n",
            self.names.len()
        );
        for (at, name) in self.names.iter().enumerate() {
            writeln!(about, "probe{}={name}", at + 1).unwrap();
        }
        writeln!(about, "unitsize={width}").unwrap();
        let mut files = vec![("version".to_string(), b"2".to_vec())];
        files.push(("metadata".to_string(), about.into_bytes()));
        for (at, part) in units.chunks(piece * width).enumerate() {
            files.push((format!("logic-1-{}", at + 1), part.to_vec()));
        }
        archive(&files)
    }
}

/// Each level for about `times` samples, up to `jitter` more or less.
pub fn oversampled(random: &mut Random, samples: &[u8], times: usize, jitter: usize) -> Vec<u8> {
    let often = |&sample: &u8| vec![sample; random.between(times - jitter, times + jitter)];
    samples.iter().flat_map(often).collect()
}

fn checksum(data: &[u8]) -> u32 {
    let step = |sum: u32, byte: &u8| {
        (0..8).fold(sum ^ u32::from(*byte), |sum, _| {
            sum >> 1 ^ (0xEDB8_8320 & (sum & 1).wrapping_neg())
        })
    };
    !data.iter().fold(!0, step)
}

/// A zip archive of files that are stored as they are.
fn archive(files: &[(String, Vec<u8>)]) -> Vec<u8> {
    let (mut out, mut directory) = (Vec::new(), Vec::new());
    for (name, data) in files {
        let at = out.len() as u32;
        let size = (data.len() as u32).to_le_bytes();
        // Version, flags, method, time, date; then checksum, both sizes, the name's length.
        let mut about = vec![20, 0, 0, 0, 0, 0, 0, 0, 0x21, 0x5C];
        about.extend(checksum(data).to_le_bytes());
        about.extend([size, size].concat());
        about.extend((name.len() as u16).to_le_bytes());
        about.extend([0, 0]);
        out.extend([b"PK\x03\x04", &about[..], name.as_bytes(), data].concat());
        directory.extend([b"PK\x01\x02\x14\x00", &about[..], &[0; 10], &at.to_le_bytes()].concat());
        directory.extend(name.as_bytes());
    }
    let (count, size) =
        ((files.len() as u16).to_le_bytes(), (directory.len() as u32).to_le_bytes());
    let at = (out.len() as u32).to_le_bytes();
    out.extend(directory);
    out.extend([b"PK\x05\x06\0\0\0\0", &count[..], &count, &size, &at, &[0, 0]].concat());
    out
}
