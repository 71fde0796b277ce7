//! Several chips on one wire (document 02, Ask 10): a select each, and SCLK, SDIO and
//! SDO for all. A chip alone is stepped by `reader`; whose record comes when, and at
//! which read bytes another chip was selected, is told here.

use std::ops::Range;

use super::map::RegisterMap;
use super::reader::{self, MOST_SAMPLES, READ};
use super::registers::{Banks, Registers};
use super::rules::Newer;
use super::session::{Phase, Session, CSB, SCLK, SDIO, SDO};
use super::touched::words_for;
use super::Answer;

pub const MOST_CHIPS: usize = 8;

/// The number of the chip, which is its place in the list, and its record.
pub const RECORD: usize = 1 + reader::RECORD;

/// The last byte before the moved bits, in the record of a read byte at one of whose
/// edges another chip was selected.
pub const CONTENDED: u8 = 2;
const AGREEMENT_AT: usize = 5;

/// Two bytes: the selects, bit i for chip i, and then the other lines.
type Sample = [u8; 2];

/// A bank of one chip in the memory that all chips share.
#[repr(C)]
#[derive(Clone, Copy, Debug, PartialEq, Eq)]
pub struct BankRange {
    pub start: u64,
    pub length: u64,
}

impl BankRange {
    /// Where it ends. A sum that is too large ends at the last number, which no memory
    /// reaches.
    fn end(self) -> u64 {
        self.start.saturating_add(self.length)
    }

    /// Whether they share a byte, which an empty one never does.
    fn overlaps(self, other: BankRange) -> bool {
        self.start.max(other.start) < self.end().min(other.end())
    }

    /// The places of its bytes, once it is known to be within memory.
    fn places(self) -> Range<usize> {
        let start = self.start as usize;
        start..start + self.length as usize
    }
}

/// One chip of the list.
#[derive(Clone, Copy, Debug, PartialEq, Eq)]
pub struct ListedChip {
    pub session: Session,
    /// Whether another select was low at an edge of the read byte under way.
    pub contended: bool,
    pub active: BankRange,
    pub buffer: BankRange,
}

/// Reads the samples on from each chip's session. With a refusal chips, memory and
/// records stay as they were.
pub fn read_several(
    map: &[u8],
    chips: &mut [ListedChip],
    memory: &mut [u8],
    samples: &[u8],
    records: &mut [u8],
) -> Answer {
    match try_read(map, chips, memory, samples, records) {
        Ok(count) => Answer::done(count),
        Err(number) => Answer::refused(number),
    }
}

fn try_read(
    map: &[u8],
    chips: &mut [ListedChip],
    memory: &mut [u8],
    samples: &[u8],
    records: &mut [u8],
) -> Result<usize, u8> {
    let (map, samples) = tested(map, chips, memory.len(), samples)?;
    let mut banks: Vec<_> = chips.iter().map(|chip| CopiedBanks::of(chip, memory)).collect();
    let mut readings = Vec::new();
    for (chip, banks) in chips.iter().zip(&mut banks) {
        readings.push(Reading::of(chip, map, banks)?);
    }
    let made = read_all(&mut readings, samples);
    records.get_mut(..made.len()).ok_or(6)?.copy_from_slice(&made);
    for (chip, reading) in chips.iter_mut().zip(&readings) {
        (chip.session, chip.contended) = (reading.session, reading.contended);
    }
    for (chip, banks) in chips.iter().zip(&banks) {
        memory[chip.active.places()].copy_from_slice(&banks.active);
        memory[chip.buffer.places()].copy_from_slice(&banks.buffer);
    }
    Ok(made.len() / RECORD)
}

/// The map in use and the samples, once 17, 1, 2, 3, 4 and 5, in this order, don't
/// refuse the call.
fn tested<'a>(
    map: &'a [u8],
    chips: &[ListedChip],
    memory: usize,
    samples: &'a [u8],
) -> Result<(RegisterMap<'a>, &'a [Sample]), u8> {
    if !list_stands(chips, memory) {
        return Err(17);
    }
    if !chips.iter().all(|chip| chip.session.is_sound() && mark_stands(chip)) {
        return Err(1);
    }
    let map = RegisterMap::new(Newer, map)?;
    if ranges_of(chips).any(|range| range.length != map.count() as u64) {
        return Err(4);
    }
    Ok((map, samples_of(samples, chips.len()).ok_or(5)?))
}

/// Every chip's two ranges.
fn ranges_of(chips: &[ListedChip]) -> impl Iterator<Item = BankRange> + '_ {
    chips.iter().flat_map(|chip| [chip.active, chip.buffer])
}

/// What number 17 looks at.
fn list_stands(chips: &[ListedChip], memory: usize) -> bool {
    let is_within = |range: BankRange| range.end() <= memory as u64;
    let is_apart = |(i, range): (usize, BankRange)| {
        !ranges_of(chips).skip(i + 1).any(|later| range.overlaps(later))
    };
    (1..=MOST_CHIPS).contains(&chips.len())
        && ranges_of(chips).all(is_within)
        && ranges_of(chips).enumerate().all(is_apart)
}

fn mark_stands(chip: &ListedChip) -> bool {
    !chip.contended || has_bits_of_read_byte(&chip.session)
}

fn has_bits_of_read_byte(session: &Session) -> bool {
    session.phase == Phase::Data && session.read && session.bits > 0
}

/// The samples, unless number 5 refuses them.
fn samples_of(bytes: &[u8], chips: usize) -> Option<&[Sample]> {
    let (samples, left_over) = bytes.as_chunks();
    let absent = (0x00FF_u16 << chips) as u8;
    let stands = |&[selects, lines]: &Sample| {
        selects & absent == absent && lines & !(SCLK | SDIO | SDO) == 0
    };
    let all_stand =
        left_over.is_empty() && samples.len() <= MOST_SAMPLES && samples.iter().all(stands);
    all_stand.then_some(samples)
}

/// What one chip writes while it is read: a refusal for want of room leaves the memory.
struct CopiedBanks {
    active: Vec<u8>,
    buffer: Vec<u8>,
    /// A reader alone is lent words of touched registers; nobody asks for these.
    words: Vec<u64>,
}

impl CopiedBanks {
    fn of(chip: &ListedChip, memory: &[u8]) -> Self {
        let active = memory[chip.active.places()].to_vec();
        let words = vec![0; words_for(active.len())];
        CopiedBanks { active, buffer: memory[chip.buffer.places()].to_vec(), words }
    }
}

/// One chip while it is read.
struct Reading<'a> {
    session: Session,
    contended: bool,
    registers: Registers<'a, Newer>,
}

impl<'a> Reading<'a> {
    fn of(chip: &ListedChip, map: RegisterMap<'a>, banks: &'a mut CopiedBanks) -> Result<Self, u8> {
        let ListedChip { session, contended, .. } = *chip;
        let CopiedBanks { active, buffer, words } = banks;
        let registers = Registers::for_reader(Newer, map, Banks { active, buffer, words })?;
        Ok(Reading { session, contended, registers })
    }

    /// Takes one sample, this chip's select as CSB, and gives its record if there is one.
    fn step(&mut self, sample: u8, another_is_low: bool) -> Option<[u8; reader::RECORD]> {
        let Session { levels: before, phase, read, .. } = self.session;
        let now = sample & (CSB | SCLK);
        // CSB low before and now, SCLK low before and high now.
        let takes_bit = before == 0 && now == SCLK;
        // Where CSB doesn't move either, only the last levels change.
        if !takes_bit && before & CSB == now & CSB {
            self.session.levels = now;
            return None;
        }
        self.contended |= takes_bit && phase == Phase::Data && read && another_is_low;
        let mut record = reader::step(&mut self.registers, &mut self.session, sample);
        if let Some(record) = record.as_mut().filter(|record| self.contended && record[0] == READ) {
            record[AGREEMENT_AT] = CONTENDED;
        }
        self.contended &= has_bits_of_read_byte(&self.session);
        record
    }
}

/// The records of all chips: by time, and those of one sample by the chip's number.
fn read_all(readings: &mut [Reading], samples: &[Sample]) -> Vec<u8> {
    let mut records = Vec::new();
    for &[selects, lines] in samples {
        for (number, reading) in readings.iter_mut().enumerate() {
            let others_low = !selects & !(1 << number);
            let csb = selects >> number & CSB;
            if let Some(record) = reading.step(csb | lines, others_low != 0) {
                records.push(number as u8);
                records.extend(record);
            }
        }
    }
    records
}
