//! The call for several chips on one wire (document 02, Ask 10): all that it is given, and
//! all that it leaves.

mod comparison;

pub use comparison::{read_by_both, Comparison};

use crate::calls;
use crate::generate::maps::count_of;
use crate::layout::ChipInC;
use second::reader::{self, most_records};
use second::session::Session;
use second::several::{read_several, BankRange, ListedChip, RECORD};
use second::Answer;

/// A sample: the selects, bit i for chip i, and then the other lines.
pub type Sample = [u8; 2];

/// What the call is given.
#[derive(Clone, Debug, PartialEq, Eq)]
pub struct Given {
    pub map: Vec<u8>,
    pub chips: Vec<ChipInC>,
    pub memory: Vec<u8>,
    pub samples: Vec<u8>,
    pub records: Vec<u8>,
}

/// What it answers, and all lent memory after it.
#[derive(Clone, Debug, PartialEq, Eq)]
pub struct Left {
    pub number: u32,
    pub count: u64,
    pub chips: Vec<ChipInC>,
    pub memory: Vec<u8>,
    pub records: Vec<u8>,
    /// That map and samples are as they were.
    pub inputs_kept: bool,
}

impl Given {
    /// So many chips after opening, their banks one after the other, and no samples.
    pub fn opened(map: &[u8], chips: usize) -> Self {
        let alone = calls::Given::opened(map);
        let length = count_of(map) as u64;
        let bank = |place: usize| BankRange { start: place as u64 * length, length };
        let chip = |i: usize| ListedChip {
            session: Session::opened(),
            contended: false,
            active: bank(2 * i),
            buffer: bank(2 * i + 1),
        };
        Given {
            map: map.to_vec(),
            chips: (0..chips).map(|i| chip(i).into()).collect(),
            memory: [alone.active, alone.buffer].concat().repeat(chips),
            samples: Vec::new(),
            records: Vec::new(),
        }
    }

    /// Takes over the chips and the memory that a call left.
    pub fn go_on(&mut self, left: &Left) {
        self.chips.clone_from(&left.chips);
        self.memory.clone_from(&left.memory);
    }

    /// As many bytes as any of these samples' records can take.
    pub fn ample_room(&self) -> usize {
        RECORD * self.chips.len() * most_records(self.samples.len() / 2)
    }

    /// How many records the samples have, if nothing but their room refuses the call.
    pub fn records_due(&self) -> usize {
        let ample = vec![0; self.ample_room()];
        Given { records: ample, ..self.clone() }.expected().count as usize
    }

    /// All as it was, beside this answer.
    pub fn untouched(&self, number: u32) -> Left {
        Left {
            number,
            count: 0,
            chips: self.chips.clone(),
            memory: self.memory.clone(),
            records: self.records.clone(),
            inputs_kept: true,
        }
    }

    /// What the second implementation makes of the call. What is no session, or has
    /// another mark than 0 or 1, is to it a session that is not sound.
    pub fn expected(&self) -> Left {
        let unsound = |chip: &ChipInC| ListedChip {
            session: Session { bits: 1, ..Session::opened() },
            contended: false,
            active: chip.active,
            buffer: chip.buffer,
        };
        let listed = |chip: &ChipInC| chip.listed().unwrap_or_else(|| unsound(chip));
        let mut chips: Vec<ListedChip> = self.chips.iter().map(listed).collect();
        let mut left = self.untouched(0);
        let Left { memory, records, .. } = &mut left;
        let Answer { number, count } =
            read_several(&self.map, &mut chips, memory, &self.samples, records);
        (left.number, left.count) = (number.into(), count as u64);
        if number == 0 {
            left.chips = chips.into_iter().map(ChipInC::from).collect();
        }
        left
    }

    /// What the reader of one chip is given for the one with this number, its select as
    /// CSB. No register of it was touched.
    pub fn alone(&self, number: usize) -> calls::Given {
        let chip = &self.chips[number];
        let samples: Vec<u8> = self.wire().iter().map(|&sample| of_chip(sample, number)).collect();
        calls::Given {
            session: chip.session,
            active: bank_in(&self.memory, chip.active).to_vec(),
            buffer: bank_in(&self.memory, chip.buffer).to_vec(),
            records: vec![0xEE; reader::RECORD * most_records(samples.len())],
            samples,
            ..calls::Given::opened(&self.map)
        }
    }

    /// The samples, whole ones alone.
    pub fn wire(&self) -> &[Sample] {
        self.samples.as_chunks().0
    }
}

impl Left {
    /// The records of all chips.
    pub fn made(&self) -> &[[u8; RECORD]] {
        &self.records.as_chunks().0[..self.count as usize]
    }

    /// The records of the chip with this number, as a chip alone has them.
    pub fn own_records(&self, number: usize) -> Vec<[u8; reader::RECORD]> {
        let own = self.made().iter().filter(|record| usize::from(record[0]) == number);
        own.map(|&[_, ref alone @ ..]| *alone).collect()
    }

    /// Both stages of the chip with this number.
    pub fn banks(&self, number: usize) -> [&[u8]; 2] {
        let chip = &self.chips[number];
        [chip.active, chip.buffer].map(|range| bank_in(&self.memory, range))
    }
}

/// The sample as a chip alone has it.
pub fn of_chip([selects, lines]: Sample, number: usize) -> u8 {
    lines | selects >> number & 1
}

/// A bank that stays within the memory.
pub(crate) fn bank_in(memory: &[u8], range: BankRange) -> &[u8] {
    &memory[range.start as usize..][..range.length as usize]
}
