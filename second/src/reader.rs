//! The calls of the reader: opening, reading a trace into records, and reading
//! it up to its next record.

use super::map::RegisterMap;
pub use super::registers::Banks;
use super::registers::Registers;
use super::rules::{Newer, Rules};
use super::session::{Event, Session};
use super::Answer;

pub const RECORD: usize = 7;
pub(super) const MOST_SAMPLES: usize = 65_536;

pub const WRITE: u8 = 1;
pub const READ: u8 = 2;
pub const CUT: u8 = 3;

/// Puts each default in both banks. The opened session is returned always,
/// beside the number.
pub fn open(map: &[u8], active: &mut [u8], buffer: &mut [u8]) -> (u8, Session) {
    open_by(Newer, map, active, buffer)
}

/// The same for any chip, as are those below whose names end so.
pub fn open_by(
    rules: impl Rules,
    map: &[u8],
    active: &mut [u8],
    buffer: &mut [u8],
) -> (u8, Session) {
    let registers =
        RegisterMap::new(rules, map).and_then(|map| Registers::new(rules, map, active, buffer));
    let number = match registers {
        Ok(mut registers) => {
            registers.put_defaults();
            0
        }
        Err(number) => number,
    };
    (number, Session::opened())
}

/// The registers of a map that is still to be tested.
fn registers_of<'a, R: Rules>(
    rules: R,
    map: &'a [u8],
    banks: Banks<'a>,
) -> Result<Registers<'a, R>, u8> {
    RegisterMap::new(rules, map).and_then(|map| Registers::for_reader(rules, map, banks))
}

/// Reads the samples on from the session. With a refusal session, banks,
/// words and records stay as they were.
pub fn read(
    map: &[u8],
    session: &mut Session,
    banks: Banks,
    samples: &[u8],
    records: &mut [u8],
) -> Answer {
    read_by(Newer, map, session, banks, samples, records)
}

pub fn read_by(
    rules: impl Rules,
    map: &[u8],
    session: &mut Session,
    banks: Banks,
    samples: &[u8],
    records: &mut [u8],
) -> Answer {
    if !rules.is_sound(session) {
        return Answer::refused(1);
    }
    match registers_of(rules, map, banks) {
        Ok(mut registers) => read_into(&mut registers, session, samples, records),
        Err(number) => Answer::refused(number),
    }
}

/// The same for a caller who has had the map and the banks tested and whose
/// session is sound: 5 and 6 alone are left to refuse.
pub(super) fn read_into(
    registers: &mut Registers<impl Rules>,
    session: &mut Session,
    samples: &[u8],
    records: &mut [u8],
) -> Answer {
    if refused_for_samples(samples) {
        return Answer::refused(5);
    }
    let room = records.len() / RECORD;
    if room < most_records(samples.len())
        && room < count_records(registers.rules, *session, samples)
    {
        return Answer::refused(6);
    }
    Answer::done(write_records(registers, session, samples, records))
}

/// Reads on up to and with the first sample that gives a record, or all of
/// them, and says beside the answer how many samples it took. Number 5 looks at
/// all samples, number 6 at the one record; a refusal takes none.
pub fn next_record(
    map: &[u8],
    session: &mut Session,
    banks: Banks,
    samples: &[u8],
    records: &mut [u8],
) -> (Answer, usize) {
    next_record_by(Newer, map, session, banks, samples, records)
}

pub fn next_record_by(
    rules: impl Rules,
    map: &[u8],
    session: &mut Session,
    banks: Banks,
    samples: &[u8],
    records: &mut [u8],
) -> (Answer, usize) {
    if !rules.is_sound(session) {
        return (Answer::refused(1), 0);
    }
    match registers_of(rules, map, banks) {
        Ok(mut registers) => next_record_into(&mut registers, session, samples, records),
        Err(number) => (Answer::refused(number), 0),
    }
}

fn next_record_into(
    registers: &mut Registers<impl Rules>,
    session: &mut Session,
    samples: &[u8],
    records: &mut [u8],
) -> (Answer, usize) {
    if refused_for_samples(samples) {
        return (Answer::refused(5), 0);
    }
    let (mut after, mut at) = (*session, 0);
    let event = after.next_event(registers.rules, samples, &mut at);
    if event.is_some() && records.len() < RECORD {
        return (Answer::refused(6), 0);
    }
    move_before(registers, session.armed, &after);
    if let Some(event) = event {
        records[..RECORD].copy_from_slice(&record_of(event, registers, &mut after));
    }
    *session = after;
    (Answer::done(usize::from(event.is_some())), at)
}

/// No more than these: the first sample may end a piece begun before, and
/// every further record takes a low clock, a high one and an end at least.
pub const fn most_records(samples: usize) -> usize {
    samples.div_ceil(3)
}

/// Whether they are too many, or one has any of bits 4 to 7 set.
fn refused_for_samples(samples: &[u8]) -> bool {
    samples.len() > MOST_SAMPLES || samples.iter().fold(0, |seen, &sample| seen | sample) > 0x0F
}

fn count_records(rules: impl Rules, mut session: Session, samples: &[u8]) -> usize {
    let (mut count, mut at) = (0, 0);
    while session.next_event(rules, samples, &mut at).is_some() {
        count += 1;
    }
    count
}

fn write_records(
    registers: &mut Registers<impl Rules>,
    session: &mut Session,
    samples: &[u8],
    records: &mut [u8],
) -> usize {
    let (mut count, mut at) = (0, 0);
    loop {
        let was_armed = session.armed;
        let event = session.next_event(registers.rules, samples, &mut at);
        move_before(registers, was_armed, session);
        let Some(event) = event else {
            return count;
        };
        let record = record_of(event, registers, session);
        records[RECORD * count..RECORD * (count + 1)].copy_from_slice(&record);
        count += 1;
    }
}

/// Takes one sample of a sound session, and gives the record that it brings.
#[inline(always)]
pub(super) fn step(
    registers: &mut Registers<impl Rules>,
    session: &mut Session,
    sample: u8,
) -> Option<[u8; RECORD]> {
    let was_armed = session.armed;
    let event = session.next_event(registers.rules, &[sample], &mut 0);
    move_before(registers, was_armed, session);
    event.map(|event| record_of(event, registers, session))
}

/// Moves buffered registers if the session, now at an event or after the last
/// sample, has come to the end of an armed frame on the way: nothing else on it
/// clears the mark. A cut at that very end does nothing to the banks itself.
#[inline(always)]
fn move_before(registers: &mut Registers<impl Rules>, was_armed: bool, session: &Session) {
    if was_armed && !session.armed {
        registers.end_armed_frame();
    }
}

/// What the event does to the registers and to the mark of an armed session, and
/// its record.
fn record_of(
    event: Event,
    registers: &mut Registers<impl Rules>,
    session: &mut Session,
) -> [u8; RECORD] {
    let settings = session.settings;
    match event {
        Event::Written { address, byte } => {
            let written = registers.write(address, byte, settings);
            session.armed = registers.armed_after(session.armed, written.effect);
            record(WRITE, address, [byte, written.byte, written.effect], written.moved)
        }
        Event::Read { address, byte } => {
            let due = registers.due(address, settings);
            record(READ, address, [due, byte, u8::from(due != byte)], 0)
        }
        Event::Cut { address, bits, in_data } => {
            record(CUT, address, [bits, u8::from(in_data), 0], 0)
        }
    }
}

fn record(kind: u8, address: u16, rest: [u8; 3], moved: u8) -> [u8; RECORD] {
    let [high, low] = address.to_be_bytes();
    [kind, high, low, rest[0], rest[1], rest[2], moved]
}
