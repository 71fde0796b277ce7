//! The call for several chips of the library against the second implementation: all that
//! it answers and leaves is compared, and a difference is kept.

use std::cell::RefCell;

use super::{Given, Left};
use crate::calls::{lines, names_of};
use crate::environment::Running;
use crate::guarded::{Against, Guarded};
use crate::layout::CHIP_SIZE;
use crate::library::several::{read_several, Lent};
use crate::made::NOT_WRITTEN;
use crate::tally::{self, RecordTally};

/// Guarded memory for everything that the call is lent.
struct Memory {
    map: Guarded,
    chips: Guarded,
    memory: Guarded,
    samples: Guarded,
    records: Guarded,
    count: Guarded,
    against: Against,
}

impl Default for Memory {
    fn default() -> Self {
        Memory {
            map: Guarded::new(32_768),
            chips: Guarded::new(256 * CHIP_SIZE),
            memory: Guarded::new(200_000),
            samples: Guarded::new(140_000),
            records: Guarded::new(1_500_000),
            count: Guarded::new(8),
            against: Against::PageAfter,
        }
    }
}

impl Memory {
    /// What the library makes of the call, if it has it.
    fn product(&mut self, given: &Given) -> Option<Left> {
        let mut lent = Lent {
            map: self.map.hold(&given.map, self.against),
            chips: self.chips.hold_chips(&given.chips, self.against),
            memory: self.memory.hold(&given.memory, self.against),
            samples: self.samples.hold(&given.samples, self.against),
            records: self.records.hold(&given.records, self.against),
            count: self.count.hold_number(NOT_WRITTEN, self.against),
        };
        Some(Left {
            number: read_several(&mut lent)?,
            count: *lent.count,
            chips: lent.chips.to_vec(),
            memory: lent.memory.to_vec(),
            records: lent.records.to_vec(),
            inputs_kept: lent.map == given.map && lent.samples == given.samples,
        })
    }
}

/// A single call by both, in memory against either page; what it left, if they agree.
pub fn read_by_both(given: &Given) -> Left {
    thread_local! {
        static MEMORY: RefCell<Memory> = RefCell::new(Memory::default());
    }
    let expected = given.expected();
    for against in [Against::PageBefore, Against::PageAfter] {
        let found = MEMORY.with_borrow_mut(|memory| {
            memory.against = against;
            memory.product(given)
        });
        if let Some(found) = found {
            assert_eq!(found, expected, "the library on {given:02X?}");
        }
    }
    expected
}

/// What the compared calls came to.
#[derive(Default)]
pub struct Tally {
    pub calls: u64,
    /// How often each number was given.
    pub numbers: [u64; 18],
    records: RecordTally,
    /// Records of each chip.
    records_by_chip: [u64; 8],
    /// Calls after which a mark was set.
    pub marked: u64,
}

impl Tally {
    fn note(&mut self, left: &Left) {
        self.calls += 1;
        self.numbers[left.number as usize] += 1;
        for [number, alone @ ..] in left.made() {
            self.records.note(alone);
            self.records_by_chip[usize::from(*number)] += 1;
        }
        self.marked += u64::from(left.number == 0 && left.chips.iter().any(|c| c.contended == 1));
    }

    /// That every kind of record, contended reads among them, and every chip was met so
    /// often.
    pub fn assert_records(&self, times: u64) {
        self.records.assert_met(6, 3, times);
        let counts = &self.records_by_chip;
        assert!(counts.iter().all(|&count| count >= times), "records by chip: {counts:?}");
    }

    /// That these numbers were given so often, and no others.
    pub fn assert_numbers(&self, numbers: &[usize], times: u64) {
        tally::assert_numbers("several chips", &self.numbers, numbers, times);
    }
}

/// A list of compared calls.
pub struct Comparison {
    running: Running,
    memory: Memory,
    pub tally: Tally,
}

impl Comparison {
    /// Of the test with this path.
    pub fn new(test: &'static str) -> Self {
        let (memory, tally) = (Memory::default(), Tally::default());
        Comparison { running: Running::new(test), memory, tally }
    }

    /// Begins the case of a seed.
    pub fn begin(&mut self, seed: u64) {
        self.memory.against = Against::of_seed(seed);
        self.running.begin(seed);
    }

    /// The call by both; what it left, if they agree.
    pub fn call(&mut self, given: &Given) -> Left {
        let expected = given.expected();
        let found = self.memory.product(given).unwrap_or_else(|| expected.clone());
        if found != expected {
            self.differ(given, &found, &expected);
        }
        // By itself, whatever the second implementation does.
        let untouched = given.untouched(found.number);
        if found.number != 0 && found != untouched {
            self.differ(given, &found, &untouched);
        }
        self.tally.note(&found);
        found
    }

    /// Keeps all of a call that differs, and fails.
    fn differ(&self, given: &Given, found: &Left, expected: &Left) -> ! {
        let told = format!(
            "gave {} and {} records, expected {} and {}; what differs: {}; memory against the {:?}",
            found.number,
            found.count,
            expected.number,
            expected.count,
            differing(found, expected),
            self.memory.against
        );
        let [found, expected] = [found, expected].map(listing_of_left);
        let listing =
            format!("given\n{}\nfound\n{found}\nexpected\n{expected}", listing_of_given(given));
        self.running.differ(&told, &listing)
    }
}

fn differing(found: &Left, expected: &Left) -> String {
    names_of(&[
        ("number", found.number != expected.number),
        ("count", found.count != expected.count),
        ("chips", found.chips != expected.chips),
        ("memory", found.memory != expected.memory),
        ("records", found.records != expected.records),
        ("map or samples", found.inputs_kept != expected.inputs_kept),
    ])
}

fn listing_of_given(given: &Given) -> String {
    let Given { map, chips, memory, samples, records } = given;
    let parts: [(&str, &[u8]); 4] =
        [("map", map), ("memory", memory), ("samples", samples), ("records", records)];
    format!("{chips:02X?}\n{}", lines(&parts))
}

fn listing_of_left(left: &Left) -> String {
    let Left { number, count, chips, memory, records, .. } = left;
    let parts: [(&str, &[u8]); 2] = [("memory", memory), ("records", records)];
    format!("number {number}, count {count}\n{chips:02X?}\n{}", lines(&parts))
}
