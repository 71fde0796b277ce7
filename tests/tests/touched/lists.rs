//! Lists of calls touch what their records name.

use std::collections::BTreeSet;

use couplingnut_tests::both::{touched_count, touched_mark};
use couplingnut_tests::calls::{Call, Comparison};
use couplingnut_tests::generate::calls::Chain;
use couplingnut_tests::generate::random::Random;
use couplingnut_tests::guarded::Against;
use second::reader::{RECORD, WRITE};

use super::{set_in, walk};

/// The register that a record names with effect 1 or 2.
fn named(record: &[u8]) -> Option<u64> {
    let touches = record[0] == WRITE && [1, 2].contains(&record[5]);
    touches.then(|| u64::from(u16::from_be_bytes([record[1], record[2]])))
}

/// Whether the list of this seed begins with a mark; the others begin with any words.
fn is_marked(seed: u64) -> bool {
    !seed.is_multiple_of(4)
}

/// Makes a list of calls, refused ones among them; now and then it marks again. Gives
/// the words at its end, and what the records of the done calls have named since the
/// last mark, beside what was set before if there was none.
fn words_and_named(comparison: &mut Comparison, mut chain: Chain, seed: u64) -> [Vec<u64>; 2] {
    let mut random = Random::new(seed);
    let mut due: BTreeSet<u64> = set_in(&chain.given.words).into_iter().collect();
    for i in 0..40 {
        if chain.is_over() {
            break;
        }
        if i == 0 && is_marked(seed) || random.one_in(60) {
            assert_eq!(touched_mark(&mut chain.given.words), 0);
            due.clear();
        }
        let (call, given) = chain.next_call();
        let left = comparison.call(call, &given);
        if left.number == 0 {
            due.extend(left.records.chunks(RECORD).take(left.count as usize).filter_map(named));
            chain.go_on(call, &given, &left);
        }
    }
    [chain.given.words, due.into_iter().collect()]
}

fn lists_touch_what_their_records_name(subject: &'static str, chain: impl Fn(u64) -> Chain) {
    let mut comparison = Comparison::new(subject);
    let mut several = 0;
    for seed in 0..8_000 {
        comparison.begin(seed, Against::PageAfter);
        let [words, due] = words_and_named(&mut comparison, chain(seed), seed);
        assert_eq!(walk(&words), due, "seed {seed}");
        assert_eq!(touched_count(&words), (0, due.len() as u64), "seed {seed}");
        several += usize::from(is_marked(seed) && due.len() > 2);
    }
    let refused = comparison.tally.numbers[Call::Read as usize][16];
    assert!(several > 400, "only {several} lists touch three registers");
    assert!(refused > 100, "only {refused} calls are refused with 16");
}

#[test]
fn lists_of_calls_touch_what_their_records_name() {
    let subject = "touched::lists::lists_of_calls_touch_what_their_records_name";
    lists_touch_what_their_records_name(subject, Chain::new);
}

#[test]
fn lists_of_calls_of_older_chips_touch_what_their_records_name() {
    let subject = "touched::lists::lists_of_calls_of_older_chips_touch_what_their_records_name";
    lists_touch_what_their_records_name(subject, Chain::older);
}
