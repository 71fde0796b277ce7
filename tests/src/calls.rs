//! The reader's calls of the library against the second implementation: all
//! that a call answers and leaves is compared, and a difference is kept.

use crate::environment::Running;
use crate::generate::maps::count_of;
use crate::guarded::{Against, Guarded};
use crate::layout::{from_bytes, to_bytes, SessionBytes, SESSION_SIZE};
use crate::library::{self, Lent};
use crate::made::NOT_WRITTEN;
use crate::tally::{self, RecordTally};
use second::older::Older;
use second::reader::{self, Banks, RECORD};
use second::session::Session;
use second::touched::words_for;
use second::Answer;

#[derive(Clone, Copy, Debug, PartialEq, Eq)]
pub enum Call {
    Open,
    Read,
    NextRecord,
}

impl Call {
    /// Those that take samples.
    pub const READING: [Call; 2] = [Call::Read, Call::NextRecord];
}

/// What a call is given. Opening leaves words, samples and records alone.
#[derive(Clone, Debug, PartialEq, Eq)]
pub struct Given {
    /// Part and top, if the call is that of an older chip.
    pub older: Option<Older>,
    pub map: Vec<u8>,
    pub session: SessionBytes,
    pub active: Vec<u8>,
    pub buffer: Vec<u8>,
    /// Of touched registers.
    pub words: Vec<u64>,
    pub samples: Vec<u8>,
    pub records: Vec<u8>,
}

/// All that a call answers, and all lent memory after it. A count that the call
/// does not have is 0.
#[derive(Clone, Debug, PartialEq, Eq)]
pub struct Left {
    pub number: u32,
    pub count: u64,
    pub taken: u64,
    pub session: SessionBytes,
    pub active: Vec<u8>,
    pub buffer: Vec<u8>,
    pub words: Vec<u64>,
    pub records: Vec<u8>,
    /// That map and samples are as they were.
    pub inputs_kept: bool,
}

impl Given {
    /// A call that nothing refuses: a good map after opening, no register touched, and
    /// no samples.
    pub fn opened(map: &[u8]) -> Self {
        Given::opened_by(None, map)
    }

    /// The same for any chip.
    pub fn opened_by(older: Option<Older>, map: &[u8]) -> Self {
        let count = count_of(map);
        let mut given = Given {
            older,
            map: map.to_vec(),
            session: [0; SESSION_SIZE],
            active: vec![0; count],
            buffer: vec![0; count],
            words: vec![0; words_for(count)],
            samples: Vec::new(),
            records: Vec::new(),
        };
        let left = given.expected(Call::Open);
        assert_eq!(left.number, 0, "the map is good");
        given.go_on(&left);
        given
    }

    /// Takes over the session, the banks and the words that a call left.
    pub fn go_on(&mut self, left: &Left) {
        self.session = left.session;
        self.active.clone_from(&left.active);
        self.buffer.clone_from(&left.buffer);
        self.words.clone_from(&left.words);
    }

    /// How many records the samples have, if nothing but their room refuses
    /// the call.
    pub fn records_due(&self, call: Call) -> usize {
        let ample = vec![0; RECORD * reader::most_records(self.samples.len())];
        Given { records: ample, ..self.clone() }.expected(call).count as usize
    }

    /// All as it was, beside this answer.
    pub fn untouched(&self, number: u32) -> Left {
        Left {
            number,
            count: 0,
            taken: 0,
            session: self.session,
            active: self.active.clone(),
            buffer: self.buffer.clone(),
            words: self.words.clone(),
            records: self.records.clone(),
            inputs_kept: true,
        }
    }

    /// What the second implementation makes of the call.
    pub fn expected(&self, call: Call) -> Left {
        let mut left = self.untouched(1);
        if call == Call::Open {
            let Left { active, buffer, .. } = &mut left;
            let opened = match self.older {
                None => reader::open(&self.map, active, buffer),
                Some(older) => reader::open_by(older, &self.map, active, buffer),
            };
            left.number = u32::from(opened.0);
            left.session = to_bytes(&opened.1);
        } else if let Some(session) = from_bytes(&self.session) {
            self.expect_read(call, session, &mut left);
        }
        left
    }

    fn listing(&self) -> String {
        let named = self.older.map_or(String::new(), |older| format!("{older:X?}\n"));
        named
            + &lines(&[
                ("map", &self.map),
                ("session", &self.session),
                ("active", &self.active),
                ("buffer", &self.buffer),
                ("samples", &self.samples),
                ("records", &self.records),
            ])
            + &words_line(&self.words)
    }

    fn expect_read(&self, call: Call, mut session: Session, left: &mut Left) {
        let Given { map, samples, .. } = self;
        let Left { active, buffer, words, records, .. } = left;
        let (next, banks) = (&mut session, Banks { active, buffer, words });
        let (Answer { number, count }, taken) = match (call, self.older) {
            (Call::NextRecord, None) => reader::next_record(map, next, banks, samples, records),
            (Call::NextRecord, Some(older)) => {
                reader::next_record_by(older, map, next, banks, samples, records)
            }
            (_, None) => (reader::read(map, next, banks, samples, records), 0),
            (_, Some(older)) => (reader::read_by(older, map, next, banks, samples, records), 0),
        };
        left.number = u32::from(number);
        left.count = count as u64;
        left.taken = taken as u64;
        left.session = to_bytes(&session);
    }
}

impl Left {
    fn listing(&self) -> String {
        let Left { number, count, taken, .. } = self;
        let told = format!("number {number}, count {count}, taken {taken}\n");
        told + &lines(&[
            ("session", &self.session),
            ("active", &self.active),
            ("buffer", &self.buffer),
            ("records", &self.records),
        ]) + &words_line(&self.words)
    }
}

/// Guarded memory for everything that a call of the reader is lent.
pub struct Memory {
    map: Guarded,
    session: Guarded,
    active: Guarded,
    buffer: Guarded,
    words: Guarded,
    samples: Guarded,
    records: Guarded,
    count: Guarded,
    taken: Guarded,
    pub against: Against,
}

impl Default for Memory {
    fn default() -> Self {
        Memory {
            map: Guarded::new(32_768),
            session: Guarded::new(SESSION_SIZE),
            active: Guarded::new(32_768),
            buffer: Guarded::new(32_768),
            words: Guarded::new(8 * 1_024),
            samples: Guarded::new(70_000),
            records: Guarded::new(RECORD * 70_000),
            count: Guarded::new(8),
            taken: Guarded::new(8),
            against: Against::PageAfter,
        }
    }
}

impl Memory {
    /// What the library makes of the call, if it has it.
    pub fn product(&mut self, call: Call, given: &Given) -> Option<Left> {
        let session = self.session.hold(&given.session, self.against);
        let mut lent = Lent {
            map: self.map.hold(&given.map, self.against),
            session: session.try_into().expect("a session has its size"),
            active: self.active.hold(&given.active, self.against),
            buffer: self.buffer.hold(&given.buffer, self.against),
            words: self.words.hold_words(&given.words, self.against),
            samples: self.samples.hold(&given.samples, self.against),
            records: self.records.hold(&given.records, self.against),
            count: self.count.hold_number(NOT_WRITTEN, self.against),
            taken: self.taken.hold_number(NOT_WRITTEN, self.against),
        };
        let number = match (call, given.older) {
            (Call::Open, None) => library::open(&mut lent),
            (Call::Read, None) => library::read(&mut lent),
            (Call::NextRecord, None) => library::next_record(&mut lent),
            (Call::Open, Some(older)) => library::older::open(older, &mut lent)?,
            (Call::Read, Some(older)) => library::older::read(older, &mut lent)?,
            (Call::NextRecord, Some(older)) => library::older::next_record(older, &mut lent)?,
        };
        Some(Left {
            number,
            count: if call != Call::Open { *lent.count } else { 0 },
            taken: if call == Call::NextRecord { *lent.taken } else { 0 },
            session: *lent.session,
            active: lent.active.to_vec(),
            buffer: lent.buffer.to_vec(),
            words: lent.words.to_vec(),
            records: lent.records.to_vec(),
            inputs_kept: lent.map == given.map && lent.samples == given.samples,
        })
    }
}

/// What the compared calls came to.
#[derive(Default)]
pub struct Tally {
    pub calls: u64,
    /// How often each call gave each number.
    pub numbers: [[u64; 17]; 3],
    records: RecordTally,
}

impl Tally {
    fn note(&mut self, call: Call, left: &Left) {
        self.calls += 1;
        self.numbers[call as usize][left.number as usize] += 1;
        for record in left.records.chunks(RECORD).take(left.count as usize) {
            self.records.note(record);
        }
    }

    /// That every kind of record was met so often, with so many effects.
    pub fn assert_records(&self, effects: usize, times: u64) {
        self.records.assert_met(effects, 2, times);
    }

    /// That a call gave these numbers so often, and no others.
    pub fn assert_numbers(&self, call: Call, numbers: &[usize], times: u64) {
        let given = &self.numbers[call as usize];
        tally::assert_numbers(&format!("{call:?}"), given, numbers, times);
    }
}

/// A list of compared calls.
pub struct Comparison {
    running: Running,
    memory: Memory,
    pub tally: Tally,
}

impl Comparison {
    /// Of the test with this path.
    pub fn new(test: &'static str) -> Self {
        let (memory, tally) = (Memory::default(), Tally::default());
        Comparison { running: Running::new(test), memory, tally }
    }

    /// Begins the case of a seed.
    pub fn begin(&mut self, seed: u64, against: Against) {
        self.memory.against = against;
        self.running.begin(seed);
    }

    /// The call by both; what it left, if they agree. A call that the library
    /// lacks is the second implementation's alone.
    pub fn call(&mut self, call: Call, given: &Given) -> Left {
        let expected = given.expected(call);
        let found = self.memory.product(call, given).unwrap_or_else(|| expected.clone());
        if found != expected {
            self.differ(call, given, &found, &expected);
        }
        if found.number != 0 {
            // By itself, whatever the second implementation does.
            let session = if call == Call::Open { found.session } else { given.session };
            let kept = Left { session, ..given.untouched(found.number) };
            if found != kept {
                self.differ(call, given, &found, &kept);
            }
        }
        self.tally.note(call, &found);
        found
    }

    /// Keeps all of a call that differs, and fails.
    fn differ(&self, call: Call, given: &Given, found: &Left, expected: &Left) -> ! {
        let told = format!(
            "{call:?} gave {}, expected {}; what differs: {}; memory against the {:?}",
            found.number,
            expected.number,
            differing(found, expected),
            self.memory.against
        );
        let listing = format!(
            "given\n{}\nfound\n{}\nexpected\n{}",
            given.listing(),
            found.listing(),
            expected.listing()
        );
        self.running.differ(&told, &listing)
    }
}

/// Bytes by their names, a line each.
pub(crate) fn lines(named: &[(&str, &[u8])]) -> String {
    let hex = |bytes: &[u8]| bytes.iter().map(|byte| format!(" {byte:02X}")).collect::<String>();
    named.iter().map(|(name, bytes)| format!("{name}:{}\n", hex(bytes))).collect()
}

/// Words of touched registers, as one line.
fn words_line(words: &[u64]) -> String {
    let hex: String = words.iter().map(|word| format!(" {word:016X}")).collect();
    format!("words:{hex}\n")
}

/// The names of those parts that differ.
pub(crate) fn names_of(parts: &[(&str, bool)]) -> String {
    let other = parts.iter().filter(|(_, differs)| *differs);
    other.map(|(name, _)| *name).collect::<Vec<_>>().join(", ")
}

fn differing(found: &Left, expected: &Left) -> String {
    names_of(&[
        ("number", found.number != expected.number),
        ("count", found.count != expected.count),
        ("taken", found.taken != expected.taken),
        ("session", found.session != expected.session),
        ("active bank", found.active != expected.active),
        ("buffer bank", found.buffer != expected.buffer),
        ("words", found.words != expected.words),
        ("records", found.records != expected.records),
        ("map or samples", found.inputs_kept != expected.inputs_kept),
    ])
}
