//! The book of document 01's stopped run, written down directly; for older chips as
//! document 02, Ask 1 has it, with the rise of Ask 4 at its end, and with the words of
//! Ask 7.

use crate::chip::Chip;
use crate::generate::maps::entry_at;
use second::sender::Order;

/// The active bank, the buffer bank and the words of touched registers.
pub type Kept = (Vec<u8>, Vec<u8>, Vec<u64>);

/// The two banks and the words, and the writes of whole bytes by the writing rule.
struct Book<'a> {
    is_older: bool,
    map: &'a [u8],
    active: Vec<u8>,
    buffer: Vec<u8>,
    words: Vec<u64>,
    /// Whether a byte went to a buffered register, and no soft reset came after it.
    has_buffered: bool,
}

impl Book<'_> {
    fn entry(&self, address: usize) -> Option<&[u8]> {
        let at = entry_at(self.map, address);
        self.map.get(at..at + 3)
    }

    fn write(&mut self, address: usize, v: u8) {
        let masked = |old: u8, mask: u8| {
            (0..8)
                .map(|i| 1 << i)
                .filter(|bit| if mask & bit != 0 { v } else { old } & bit != 0)
                .sum()
        };
        if matches!(self.entry(address), Some([2 | 3, ..])) {
            self.words[address / 64] |= 1 << (address % 64);
        }
        match self.entry(address) {
            Some(&[2, mask, _]) => self.active[address] = masked(self.active[address], mask),
            Some(&[3, mask, _]) => {
                self.buffer[address] = masked(self.buffer[address], mask);
                self.has_buffered = true;
            }
            Some(&[4, ..]) if self.is_older && address == 0x0005 && v % 2 == 1 => self.transfer(),
            Some(&[4, ..]) if self.is_older => {}
            Some(&[4, ..]) if address == 0x0000 && v % 2 == 1 && is_mirror(v) => self.reset(),
            Some(&[4, ..]) if address == 0x000F && v % 2 == 1 => self.transfer(),
            _ => {}
        }
    }

    fn reset(&mut self) {
        for address in 0..self.active.len() {
            let default = self.map[entry_at(self.map, address) + 2];
            self.active[address] = default;
            self.buffer[address] = default;
        }
        self.has_buffered = false;
    }

    /// The select rises: with the map's flag, on a newer chip, what was written to
    /// buffered registers is put in force.
    fn rise(&mut self) {
        let is_flagged = self.map[2] == 2 && self.map[5] == 1;
        if is_flagged && !self.is_older && self.has_buffered {
            self.transfer();
        }
    }

    fn transfer(&mut self) {
        for address in 0..self.active.len() {
            if self.map[entry_at(self.map, address)] == 3 {
                self.active[address] = self.buffer[address];
            }
        }
    }
}

/// What a chip has of these.
pub fn kept(chip: &Chip) -> Kept {
    (chip.active.clone(), chip.buffer.clone(), chip.words.clone())
}

/// Whether bit i is bit 7 less i, for each i.
fn is_mirror(v: u8) -> bool {
    (0..4).all(|i| v >> i & 1 == v >> (7 - i) & 1)
}

/// Banks and words after the order's bytes that are whole when s samples were sent,
/// and after the rise.
pub fn book(chip: &Chip, order: &Order, s: usize) -> Kept {
    let mut book = written(chip, order, s);
    book.rise();
    (book.active, book.buffer, book.words)
}

/// The same without the rise: banks and words while the select is still low.
pub fn book_before_the_rise(chip: &Chip, order: &Order, s: usize) -> Kept {
    let book = written(chip, order, s);
    (book.active, book.buffer, book.words)
}

fn written<'a>(chip: &'a Chip, order: &Order, s: usize) -> Book<'a> {
    let is_older = chip.older.is_some();
    let mut book = Book {
        is_older,
        map: &chip.map,
        active: chip.active.clone(),
        buffer: chip.buffer.clone(),
        words: chip.words.clone(),
        has_buffered: false,
    };
    // An older chip goes up lowest bit first.
    let ascending = if is_older { order.settings & 1 } else { order.settings & 2 };
    let mut address = order.start as usize;
    for (i, &v) in (1..).zip(order.data) {
        let whole = if order.settings & 4 == 0 { 33 + 16 * i } else { 48 * i + 1 };
        if s < whole {
            break;
        }
        book.write(address, v);
        address = (address + if ascending == 0 { 0x7FFF } else { 1 }) % 0x8000;
    }
    book
}
