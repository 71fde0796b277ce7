//! The verdict of a report, by the rule in docs/rules/programs.md, from what the
//! second implementation reads: a list of the conditions that fail, by their names.

use super::map::{RegisterMap, BLANK, BUFFERED};
use super::reader::{next_record, open, Banks, CUT, READ, RECORD, WRITE};
use super::registers::NO_EFFECT;
use super::rules::Newer;
use super::session::Session;
use super::touched::words_for;

const PIECE: usize = 65_536;

/// A recording read from its opening: each record with the number of the sample
/// that completed it, and both banks at the end.
pub struct Recording {
    pub records: Vec<(usize, [u8; RECORD])>,
    pub active: Vec<u8>,
    pub buffer: Vec<u8>,
}

impl Recording {
    /// The map has to be good, and no sample may be refused.
    pub fn read(map: &[u8], samples: &[u8]) -> Self {
        let count = RegisterMap::new(Newer, map).expect("a good map").count();
        let (mut active, mut buffer) = (vec![0; count], vec![0; count]);
        let mut words = vec![0; words_for(count)];
        let (_, mut session) = open(map, &mut active, &mut buffer);
        let (mut records, mut at) = (Vec::new(), 0);
        while at < samples.len() {
            let piece = &samples[at..samples.len().min(at + PIECE)];
            let mut record = [0; RECORD];
            let banks = Banks { active: &mut active, buffer: &mut buffer, words: &mut words };
            let (answer, taken) = next_record(map, &mut session, banks, piece, &mut record);
            assert_eq!(answer.number, 0, "a recording that is not refused");
            at += taken;
            if answer.count == 1 {
                records.push((at - 1, record));
            }
        }
        Recording { records, active, buffer }
    }
}

fn address(record: &[u8; RECORD]) -> u16 {
    u16::from_be_bytes([record[1], record[2]])
}

/// Why a unit is not ready: the causes, each once, in the order of the rule. A
/// unit that is ready has none.
pub fn causes(
    map: &[u8],
    samples: &[u8],
    read: &Recording,
    wanted: &[Option<u8>],
) -> Vec<&'static str> {
    let entries = RegisterMap::new(Newer, map).expect("a good map");
    let kind = |at: u16| entries.entry(at).map(|entry| entry[0]);
    let fulfilled = |at: usize| wanted.get(at).copied().flatten() == Some(read.active[at]);
    let excused = |at: u16| usize::from(at) < wanted.len() && fulfilled(usize::from(at));
    let any = |test: &dyn Fn(&[u8; RECORD]) -> bool| read.records.iter().any(|(_, r)| test(r));
    let waits = |at: usize| kind(at as u16) == Some(BUFFERED) && read.buffer[at] != read.active[at];
    let harmless = |r: &[u8; RECORD]| r[3] == 0 && kind(address(r)) == Some(BLANK);
    let misses = |at: usize| wanted[at].is_some() && !fulfilled(at);
    let named = |test: &dyn Fn(usize) -> bool| (0..wanted.len()).filter(|&at| test(at)).count();
    let told = |at: usize| {
        waits(at) || any(&|r| r[0] == CUT && r[4] == 1 && usize::from(address(r)) == at)
    };
    let tests = [
        ("recording", !is_whole(samples)),
        ("command", any(&|r| r[0] == CUT && r[4] == 0)),
        ("broken", any(&|r| r[0] == CUT && r[4] == 1 && !excused(address(r)))),
        ("waits", named(&waits) > 0),
        ("read", any(&|r| r[0] == READ && r[5] == 1)),
        ("ignored", any(&|r| r[0] == WRITE && r[5] == NO_EFFECT && !harmless(r))),
        ("wanted", named(&|at| misses(at) && !told(at)) > 0),
    ];
    tests.iter().filter(|(_, fails)| *fails).map(|(cause, _)| *cause).collect()
}

/// Whether it begins and ends with the select high, and the clock rose with the
/// select low at least once.
fn is_whole(samples: &[u8]) -> bool {
    let high = |sample: Option<&u8>| sample.is_some_and(|level| level & 1 == 1);
    let clocked = samples.windows(2).any(|pair| pair[0] & 3 == 0 && pair[1] & 3 == 2);
    high(samples.first()) && high(samples.last()) && clocked
}

/// The frames: how often the select fell, the level before the first sample
/// being high.
pub fn frames(samples: &[u8]) -> usize {
    let before = [Session::opened().levels | 1];
    let levels = before.iter().chain(samples);
    levels.zip(samples).filter(|(last, now)| *last & 1 == 1 && *now & 1 == 0).count()
}
