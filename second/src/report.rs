//! The text that `busread` prints for a map with the samples after it.

use std::io::{self, Read, Write};

use super::map::{whole_length, RegisterMap};
use super::reader::{self, most_records, RECORD, WRITE};
use super::registers::{Banks, Registers};
use super::rules::Newer;
use super::session::Session;
use super::settings::asks_slow;
use super::touched::words_for;

pub const PIECE: usize = 4_096;
const LARGEST_COUNT: usize = 8_192;
const LARGEST_MAP: usize = 24_582;
/// One record as a line: `W 000A 3C 3C 1 3C` and its end.
const LINE: usize = 18;

/// The text for a whole input.
pub fn report(input: &[u8]) -> Vec<u8> {
    let mut text = Vec::new();
    report_to(input, &mut text).expect("memory is read and written without fail");
    text
}

/// The same from an input that arrives to an output that is written on the
/// way, piece by piece. An input error isn't the end of the trace: it is given
/// back, and no count line is written.
pub fn report_to(mut input: impl Read, mut output: impl Write) -> io::Result<()> {
    let mut map = [0; LARGEST_MAP];
    let length = read_map(&mut input, &mut map)?;
    let map = match RegisterMap::new(Newer, &map[..length]) {
        Ok(map) => map,
        Err(number) => return writeln!(output, "refused {number}"),
    };
    writeln!(output, "map {}", map.count())?;
    let (mut active, mut buffer) = ([0; LARGEST_COUNT], [0; LARGEST_COUNT]);
    let mut words = [0; words_for(LARGEST_COUNT)];
    let banks = Banks {
        active: &mut active[..map.count()],
        buffer: &mut buffer[..map.count()],
        words: &mut words[..words_for(map.count())],
    };
    let mut registers =
        Registers::for_reader(Newer, map, banks).expect("the banks were cut to the count");
    registers.put_defaults();
    report_trace(registers, input, output)
}

/// Lines of the samples up to the end, and the count line or the refusal.
fn report_trace(
    mut registers: Registers<Newer>,
    mut input: impl Read,
    mut output: impl Write,
) -> io::Result<()> {
    let mut session = Session::opened();
    let mut samples = [0; PIECE];
    let mut records = [0; RECORD * most_records(PIECE)];
    let mut text = [0; LINE * most_records(PIECE)];
    let (mut record_count, mut sample_count, mut slow_count) = (0u64, 0u64, 0u64);
    loop {
        let length = fill(&mut input, &mut samples)?;
        let answer =
            reader::read_into(&mut registers, &mut session, &samples[..length], &mut records);
        if answer.number != 0 {
            return writeln!(output, "refused {}", answer.number);
        }
        let (found, _) = records[..RECORD * answer.count].as_chunks();
        output.write_all(lines(found, &mut text))?;
        slow_count += found.iter().filter(|record| is_slow_write(record)).count() as u64;
        record_count += answer.count as u64;
        sample_count += length as u64;
        if length < PIECE {
            return writeln!(
                output,
                "records {record_count} samples {sample_count} slow {slow_count}"
            );
        }
    }
}

/// Reads the map that the length field announces, and gives how many bytes came.
/// A field that no map has, or an input that ends early, leaves fewer bytes than
/// a map has, which the map test then refuses.
fn read_map(input: &mut impl Read, map: &mut [u8]) -> io::Result<usize> {
    let start = fill(input, &mut map[..2])?;
    match whole_length(u16::from_be_bytes([map[0], map[1]])) {
        Some(whole) => Ok(start + fill(input, &mut map[start..whole])?),
        None => Ok(start),
    }
}

/// Reads until the space is full or the input ends, however small the portions
/// in which it arrives.
fn fill(input: &mut impl Read, space: &mut [u8]) -> io::Result<usize> {
    let mut length = 0;
    while length < space.len() {
        match input.read(&mut space[length..]) {
            Ok(0) => break,
            Ok(more) => length += more,
            Err(error) if error.kind() == io::ErrorKind::Interrupted => {}
            Err(error) => return Err(error),
        }
    }
    Ok(length)
}

/// Whether a record is that of a write that asks for slow.
fn is_slow_write(&[kind, high, low, v, ..]: &[u8; RECORD]) -> bool {
    kind == WRITE && asks_slow(u16::from_be_bytes([high, low]), v)
}

/// A line for each record, put at the start of the text.
fn lines<'a>(records: &[[u8; RECORD]], text: &'a mut [u8]) -> &'a [u8] {
    for (record, line) in records.iter().zip(text.chunks_exact_mut(LINE)) {
        write_line(record, line.try_into().expect("chunks have the length of a line"));
    }
    &text[..LINE * records.len()]
}

fn write_line(record: &[u8; RECORD], line: &mut [u8; LINE]) {
    const KINDS: &[u8; 4] = b"?WRC";
    const DIGITS: &[u8; 16] = b"0123456789ABCDEF";
    let digits = |byte: u8| [DIGITS[usize::from(byte >> 4)], DIGITS[usize::from(byte & 0x0F)]];
    let &[kind, high, low, third, fourth, fifth, moved] = record;
    let ([a, b], [c, d]) = (digits(high), digits(low));
    let ([e, f], [g, h]) = (digits(third), digits(fourth));
    let (letter, i, [j, k]) = (KINDS[usize::from(kind)], DIGITS[usize::from(fifth)], digits(moved));
    *line = [letter, b' ', a, b, c, d, b' ', e, f, b' ', g, h, b' ', i, b' ', j, k, b'\n'];
}
