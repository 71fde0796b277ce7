//! What the records of compared calls came to, so that a test can say that they reached
//! what it is about.

use second::reader::{CUT, READ};

#[derive(Default)]
pub struct RecordTally {
    writes_by_effect: [u64; 6],
    /// The same writes without and with bits that moved.
    moves_by_effect: [[u64; 2]; 6],
    /// By what stands before the moved bits: equal, not, or contended.
    reads: [u64; 3],
    /// By the piece, instruction or data, and its bits.
    cuts: [[u64; 16]; 2],
}

impl RecordTally {
    /// A record as a chip alone has it.
    pub fn note(&mut self, record: &[u8]) {
        let [kind, _, _, third, fourth, fifth, moved] = record.try_into().expect("a whole record");
        match kind {
            CUT => self.cuts[usize::from(fourth)][usize::from(third)] += 1,
            READ => self.reads[usize::from(fifth)] += 1,
            _ => {
                self.writes_by_effect[usize::from(fifth)] += 1;
                self.moves_by_effect[usize::from(fifth)][usize::from(moved != 0)] += 1;
            }
        }
    }

    /// That every kind of record was met so often, with so many effects, and reads of so
    /// many sorts.
    pub fn assert_met(&self, effects: usize, reads: usize, times: u64) {
        let met = |what: &str, counts: &[u64]| {
            assert!(counts.iter().all(|&count| count >= times), "{what}: {counts:?}");
        };
        let none = |what: &str, counts: &[u64]| {
            assert_eq!(counts.iter().sum::<u64>(), 0, "{what} of no such sort");
        };
        met("writes by effect", &self.writes_by_effect[..effects]);
        none("writes", &self.writes_by_effect[effects..]);
        met("plain writes without and with moves", &self.moves_by_effect[1]);
        met("buffered writes without and with moves", &self.moves_by_effect[2]);
        met("reads", &self.reads[..reads]);
        none("reads", &self.reads[reads..]);
        met("cuts of an instruction", &self.cuts[0][1..]);
        met("cuts of a byte", &self.cuts[1][1..8]);
    }
}

/// That a call gave these numbers so often, and no others; `given` counts each.
pub fn assert_numbers(call: &str, given: &[u64], numbers: &[usize], times: u64) {
    for (number, &given) in given.iter().enumerate() {
        let expected = if numbers.contains(&number) { times..=u64::MAX } else { 0..=0 };
        assert!(expected.contains(&given), "{call}: number {number} was given {given} times");
    }
}
