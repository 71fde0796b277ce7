//! A chip on the bus: a map with its session, its two banks and the words of its
//! touched registers. Both sides open it, read it and send to it.

use crate::both::{open_by, read_by, send, send_older};
use crate::calls::Given;
use crate::generate::maps::count_of;
use crate::layout::to_bytes;
use second::older::Older;
use second::reader::{Banks, RECORD};
use second::sender::Order;
use second::session::Session;
use second::settings::Settings;
use second::touched::words_for;
use second::Answer;

/// What the sender's settings number names, in its order.
const ORDERED: [Settings; 3] =
    [Settings::LSB_FIRST, Settings::ASCENDING, Settings::SINGLE_INSTRUCTION];

#[derive(Clone, Debug, PartialEq, Eq)]
pub struct Chip {
    /// Part and top of an older chip.
    pub older: Option<Older>,
    pub map: Vec<u8>,
    pub session: Session,
    pub active: Vec<u8>,
    pub buffer: Vec<u8>,
    pub words: Vec<u64>,
}

impl Chip {
    /// The chip after opening, no register touched. The map has to be a good one.
    pub fn opened(map: &[u8]) -> Self {
        Chip::opened_by(None, map)
    }

    /// The same for any chip.
    pub fn opened_by(older: Option<Older>, map: &[u8]) -> Self {
        let count = count_of(map);
        let (mut active, mut buffer) = (vec![0; count], vec![0; count]);
        let (number, session) = open_by(older, map, &mut active, &mut buffer);
        assert_eq!(number, 0, "the map of a chip is good");
        let words = vec![0; words_for(count)];
        Chip { older, map: map.to_vec(), session, active, buffer, words }
    }

    /// The read call as it is.
    pub fn call(&mut self, samples: &[u8], records: &mut [u8]) -> Answer {
        let Chip { older, map, session, active, buffer, words } = self;
        read_by(*older, map, session, Banks { active, buffer, words }, samples, records)
    }

    /// Sets the bit of a register, as a write with effect 1 or 2 does.
    pub fn touch(&mut self, address: usize) {
        self.words[address / 64] |= 1 << (address % 64);
    }

    /// What the library's calls are given for this chip.
    pub fn given(&self, samples: &[u8], records: &[u8]) -> Given {
        Given {
            older: self.older,
            map: self.map.clone(),
            session: to_bytes(&self.session),
            active: self.active.clone(),
            buffer: self.buffer.clone(),
            words: self.words.clone(),
            samples: samples.to_vec(),
            records: records.to_vec(),
        }
    }

    /// Reads samples that nothing refuses, and gives their records as lines.
    pub fn read(&mut self, samples: &[u8]) -> Vec<String> {
        let mut records = vec![0; RECORD * samples.len()];
        let answer = self.call(samples, &mut records);
        assert_eq!(answer.number, 0, "the samples are good");
        records.chunks(RECORD).take(answer.count).map(line).collect()
    }

    /// Writes bytes from the start address on, in the settings now set.
    pub fn write(&mut self, start: u16, data: &[u8]) -> Vec<String> {
        let samples = self.samples_of(0, start, data.len(), data);
        self.read(&samples)
    }

    /// Reads one register and gives the due byte.
    pub fn due(&mut self, address: u16) -> u8 {
        let samples = self.samples_of(1, address, 1, &[]);
        let lines = self.read(&samples);
        u8::from_str_radix(&lines[0][7..9], 16).expect("the due byte is in hex digits")
    }

    fn samples_of(&self, direction: u64, start: u16, count: usize, data: &[u8]) -> Vec<u8> {
        let named = |i: usize| u64::from(self.session.settings.has(ORDERED[i])) << i;
        let (start, count) = (u64::from(start), count as u64);
        match self.older {
            None => {
                let settings = named(0) + named(1) + named(2);
                sent(&Order { direction, settings, start, count, data })
            }
            Some(older) => {
                let settings = named(0);
                sent_older(older.top, &Order { direction, settings, start, count, data })
            }
        }
    }
}

/// The samples of an order that nothing refuses.
pub fn sent(order: &Order) -> Vec<u8> {
    let mut samples = vec![0xEE; 48_003];
    let answer = send(order, &mut samples);
    assert_eq!(answer.number, 0, "the order is good");
    samples.truncate(answer.count);
    samples
}

/// The same to an older chip with this top.
pub fn sent_older(top: u64, order: &Order) -> Vec<u8> {
    let mut samples = vec![0xEE; 16_035];
    let answer = send_older(top, order, &mut samples);
    assert_eq!(answer.number, 0, "the order is good");
    samples.truncate(answer.count);
    samples
}

/// The settings that agree with an order's settings number.
pub fn settings_of(number: u64) -> Settings {
    let named = (0..3).filter(|i| number >> i & 1 == 1);
    named.fold(Settings::NONE, |settings, i| settings.with(ORDERED[i]))
}

/// A record as busread prints it.
pub fn line(record: &[u8]) -> String {
    let letter = match record[0] {
        1 => 'W',
        2 => 'R',
        3 => 'C',
        kind => panic!("no record has kind {kind}"),
    };
    let address = u16::from_be_bytes([record[1], record[2]]);
    let [third, fourth, fifth, moved] = record[3..] else { panic!("{record:?} is no record") };
    format!("{letter} {address:04X} {third:02X} {fourth:02X} {fifth:X} {moved:02X}")
}
