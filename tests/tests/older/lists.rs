//! The library's calls for older chips against the second implementation: number,
//! counts, session, both banks, the words of touched registers and the whole record
//! buffer, call by call.

use couplingnut_tests::calls::{Call, Comparison, Given, Left};
use couplingnut_tests::environment::number_from;
use couplingnut_tests::generate::calls::{put_any_state, Chain};
use couplingnut_tests::generate::older::maps::good_older_map;
use couplingnut_tests::generate::older::sessions::every_older_piece;
use couplingnut_tests::generate::older::traces::older_trace;
use couplingnut_tests::generate::older::{any_older, PARTS};
use couplingnut_tests::generate::random::Random;
use couplingnut_tests::generate::sessions::with_every_setting;
use couplingnut_tests::generate::traces::clocks;
use couplingnut_tests::guarded::Against;
use couplingnut_tests::layout::from_bytes;
use second::older::{Older, STREAMING};
use second::reader::{most_records, RECORD};
use second::session::{Phase, Session, CSB};

use crate::calls::{compare_chains, compare_most_samples, compare_reading_on};
use crate::next_record::{assert_state, one_after_another};

/// The calls of a gate run, in lists.
const CALLS: u64 = 200_000;

/// How often done calls left a session of each kind: at rest, passing over, in an
/// instruction, in counted data, in a stream, waiting.
#[derive(Default)]
struct Kinds([u64; 6]);

impl Kinds {
    fn note(&mut self, left: &Left) {
        let Session { phase, levels, left, .. } =
            from_bytes(&left.session).expect("a done call leaves a session");
        let kind = match (phase, levels & CSB != 0) {
            (Phase::Rest, true) => 0,
            (Phase::Rest, false) => 1,
            (Phase::Instruction, _) => 2,
            (Phase::Data, false) if left != STREAMING => 3,
            (Phase::Data, false) => 4,
            (Phase::Data, true) => 5,
        };
        self.0[kind] += 1;
    }
}

#[test]
fn lists_of_calls_agree() {
    let calls = number_from("CALLS", CALLS).min(CALLS);
    let mut comparison = Comparison::new("older::lists::lists_of_calls_agree");
    let mut kinds = Kinds::default();
    compare_chains(&mut comparison, calls, Chain::older, |left| kinds.note(left));
    if calls >= CALLS {
        let tally = &comparison.tally;
        tally.assert_numbers(Call::Open, &[0, 2, 3, 4, 12], 100);
        tally.assert_numbers(Call::Read, &[0, 1, 2, 3, 4, 5, 6, 12, 16], 300);
        tally.assert_numbers(Call::NextRecord, &[0, 1, 2, 3, 4, 5, 6, 12, 16], 300);
        tally.assert_records(5, 100);
        assert!(kinds.0.iter().all(|&times| times > 1_000), "{:?}", kinds.0);
    }
}

/// One session for a newer chip and both older ones, in turn: what is sound for one
/// is often none for another.
#[test]
fn lists_handed_from_chip_to_chip_agree() {
    let calls = number_from("CALLS", CALLS / 2).min(CALLS / 2);
    let mut comparison = Comparison::new("older::lists::lists_handed_from_chip_to_chip_agree");
    let mut kinds = Kinds::default();
    compare_chains(&mut comparison, calls, Chain::handed_on, |left| kinds.note(left));
    if calls >= CALLS / 2 {
        comparison.tally.assert_numbers(Call::Read, &[0, 1, 2, 3, 4, 5, 6, 12, 16], 100);
        assert!(kinds.0.iter().all(|&times| times > 200), "{:?}", kinds.0);
    }
}

/// Every phase, number of bits, direction, number of bytes left, setting, setting in
/// use and level of SCLK, read on for a byte or two.
#[test]
fn sessions_of_every_kind_are_read_on() {
    let mut comparison = Comparison::new("older::lists::sessions_of_every_kind_are_read_on");
    let mut random = Random::new(1);
    let chips = PARTS.map(|part| {
        let older = Older { part, top: 0x0017 };
        (older, good_older_map(&mut random, older))
    });
    let sessions = every_older_piece().into_iter().flat_map(with_every_setting);
    for (seed, shape) in (0..).zip(sessions) {
        comparison.begin(seed, Against::of_seed(seed));
        let mut random = Random::new(seed);
        let (older, map) = &chips[seed as usize / 2 % 2];
        let session = with_contents(&mut random, shape);
        let given = Given::opened_by(Some(*older), map);
        compare_reading_on(&mut comparison, &mut random, given, &session);
    }
    comparison.tally.assert_records(5, 50);
}

/// The session with any value of its bits and, in data, any address up to 0x0017.
fn with_contents(random: &mut Random, session: Session) -> Session {
    let value = random.below(1 << session.bits) as u16;
    let address = match session.phase {
        Phase::Data if random.one_in(3) => random.pick(&[0x0000, 0x0004, 0x0005, 0x0016, 0x0017]),
        Phase::Data => random.below(0x0018) as u16,
        _ => 0,
    };
    Session { value, address, ..session }
}

/// A chip in any sound session, with samples and room for their records.
fn any_reading(random: &mut Random, length: usize) -> Given {
    let older = any_older(random);
    let older = Older { top: older.top.min(0x0200), ..older };
    let mut given = Given::opened_by(Some(older), &good_older_map(random, older));
    put_any_state(random, &mut given);
    given.samples =
        if random.one_in(4) { clocks(random, length) } else { older_trace(random, older, length) };
    given.records = random.bytes(RECORD * most_records(length));
    given
}

/// The same samples at once, record by record, and in pieces, down to single samples.
#[test]
fn however_it_is_cut_a_trace_is_read_the_same() {
    let mut comparison =
        Comparison::new("older::lists::however_it_is_cut_a_trace_is_read_the_same");
    for seed in 0..1_500 {
        comparison.begin(seed, Against::of_seed(seed));
        let mut random = Random::new(seed);
        let length = random.between(0, 900);
        let given = any_reading(&mut random, length);
        let read = comparison.call(Call::Read, &given);
        assert_eq!(read.number, 0);
        let whole = &read.records[..RECORD * read.count as usize];
        let (after, records) = one_after_another(&mut comparison, &given);
        assert_eq!(records, whole, "seed {seed}");
        assert_state(&after, &read, seed);

        let longest = random.pick(&[1, 7, 60]);
        let mut now = given.clone();
        let (mut records, mut rest) = (Vec::<u8>::new(), &given.samples[..]);
        while !rest.is_empty() {
            let (piece, later) = rest.split_at(random.between(1, longest).min(rest.len()));
            now.samples = piece.to_vec();
            let left = comparison.call(Call::Read, &now);
            records.extend(&left.records[..RECORD * left.count as usize]);
            now.go_on(&left);
            rest = later;
        }
        assert_eq!(records, whole, "seed {seed}");
        assert_state(&now, &read, seed);
    }
}

/// 65,536 samples, and one more.
#[test]
fn the_most_samples_are_read_and_one_more_is_refused() {
    let mut comparison =
        Comparison::new("older::lists::the_most_samples_are_read_and_one_more_is_refused");
    let mut random = Random::new(2);
    for older in [Older { part: PARTS[0], top: 0x1FFF }, Older { part: PARTS[1], top: 0x002C }] {
        let given = Given::opened_by(Some(older), &good_older_map(&mut random, older));
        compare_most_samples(&mut comparison, &mut random, given);
    }
}
