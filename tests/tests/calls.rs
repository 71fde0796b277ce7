//! The reader's calls of the library against the second implementation: number,
//! counts, session, both banks, the words of touched registers and the whole record
//! buffer, call by call.

use couplingnut_tests::by_hand::frame;
use couplingnut_tests::calls::{Call, Comparison, Given, Left};
use couplingnut_tests::environment::number_from;
use couplingnut_tests::generate::calls::{sent_trace, Chain, MOST_SAMPLES};
use couplingnut_tests::generate::maps::{good_map, simple_map, with_flags};
use couplingnut_tests::generate::random::Random;
use couplingnut_tests::generate::sessions::{every_piece, with_every_setting};
use couplingnut_tests::generate::traces::clocks;
use couplingnut_tests::generate::words::any_banks;
use couplingnut_tests::guarded::Against;
use couplingnut_tests::layout::{to_bytes, SESSION_SIZE};
use second::reader::RECORD;
use second::session::{Phase, Session};

/// The calls of a gate run, in lists.
const CALLS: u64 = 500_000;
/// The calls of one list, at most.
const CHAIN: usize = 40;

#[test]
fn lists_of_calls_agree() {
    let calls = number_from("CALLS", CALLS);
    assert!(calls > 0, "no call is no test");
    let mut comparison = Comparison::new("calls::lists_of_calls_agree");
    compare_chains(&mut comparison, calls, Chain::new, |_| {});
    if calls >= CALLS {
        let tally = &comparison.tally;
        tally.assert_numbers(Call::Open, &[0, 2, 3, 4], 300);
        tally.assert_numbers(Call::Read, &[0, 1, 2, 3, 4, 5, 6, 16], 1_000);
        tally.assert_numbers(Call::NextRecord, &[0, 1, 2, 3, 4, 5, 6, 16], 1_000);
        tally.assert_records(6, 200);
    }
}

/// Lists of at least so many calls, from the seed of the environment on. What each done
/// call left is handed over.
pub fn compare_chains(
    comparison: &mut Comparison,
    calls: u64,
    chain: fn(u64) -> Chain,
    mut done: impl FnMut(&Left),
) {
    for seed in number_from("SEED", 0).. {
        if comparison.tally.calls >= calls {
            break;
        }
        comparison.begin(seed, Against::of_seed(seed));
        compare_chain(comparison, chain(seed), CHAIN, |_, _, left| done(left));
    }
}

/// A list of at most so many calls. Each that was done is handed over: which it was, what it
/// was given, and what it left.
pub fn compare_chain(
    comparison: &mut Comparison,
    mut chain: Chain,
    most: usize,
    mut done: impl FnMut(Call, &Given, &Left),
) {
    for _ in 0..most {
        if chain.is_over() {
            break;
        }
        let (call, given) = chain.next_call();
        let left = comparison.call(call, &given);
        // A refused call left the session, the banks and the words that it was given.
        if left.number == 0 {
            done(call, &given, &left);
            chain.go_on(call, &given, &left);
        }
    }
}

/// Every phase, number of bits, direction, setting, setting in use and level of
/// SCLK, armed and not, read on for a byte or two; each with the map's flag and
/// without it, and with other contents.
#[test]
fn sessions_in_every_phase_and_setting_are_read_on() {
    let mut comparison = Comparison::new("calls::sessions_in_every_phase_and_setting_are_read_on");
    let mut random = Random::new(1);
    let map = good_map(&mut random, 24);
    let with_flags = [1, 0].map(|flags| with_flags(&map, flags));
    let sessions =
        |map| every_piece().into_iter().flat_map(with_every_setting).map(move |s| (map, s));
    for (seed, (map, shape)) in (0..).zip(with_flags.iter().flat_map(sessions)) {
        comparison.begin(seed, Against::of_seed(seed));
        let mut random = Random::new(seed);
        let session = with_contents(&mut random, shape);
        assert!(session.is_sound(), "{session:?}");
        compare_reading_on(&mut comparison, &mut random, Given::opened(map), &session);
    }
    let (at_rest, in_a_piece) = (32 * 2, 2 * (16 + 8 + 8) * 32 * 16 * 2);
    assert_eq!(comparison.tally.calls, 2 * 2 * (at_rest + in_a_piece));
    comparison.tally.assert_records(6, 100);
}

/// A byte or two from this sound session on, with any banks and words.
pub fn compare_reading_on(
    comparison: &mut Comparison,
    random: &mut Random,
    mut given: Given,
    session: &Session,
) {
    given.session = to_bytes(session);
    (given.active, given.buffer, given.words) = any_banks(random, given.active.len());
    given.samples = clocks(random, 50);
    given.records = random.bytes(RECORD * 17);
    for call in Call::READING {
        assert_eq!(comparison.call(call, &given).number, 0, "{session:?}");
    }
}

/// The session with any value of its bits and, in data, any address, mostly one
/// of a register.
fn with_contents(random: &mut Random, session: Session) -> Session {
    let value = random.below(1 << session.bits) as u16;
    let address = match session.phase {
        Phase::Data if random.one_in(8) => random.pick(&[0x7FFF, 0x7FFE, 0x4000, 0x0017, 0x0018]),
        // Few of the bytes that arrive here are their own mirrors.
        Phase::Data if random.one_in(3) => 0x0000,
        Phase::Data => random.below(26) as u16,
        _ => 0,
    };
    Session { value, address, ..session }
}

/// 65,536 samples, and one more.
#[test]
fn the_most_samples_are_read_and_one_more_is_refused() {
    let mut comparison =
        Comparison::new("calls::the_most_samples_are_read_and_one_more_is_refused");
    let mut random = Random::new(2);
    let given = Given::opened(&good_map(&mut random, 600));
    compare_most_samples(&mut comparison, &mut random, given);
    assert_eq!(comparison.tally.numbers[Call::Read as usize][..7], [8, 0, 0, 0, 0, 8, 4]);
}

/// The most samples, with as many records as they can have, and with what a master sends;
/// each in memory against either page.
pub fn compare_most_samples(comparison: &mut Comparison, random: &mut Random, given: Given) {
    // A cut every three samples, from a session that has a bit already.
    let phase = Phase::Instruction;
    let begun = Session { levels: 0, phase, bits: 1, ..Session::opened() };
    let cuts: Vec<u8> = [0x01, 0x00, 0x02].into_iter().cycle().take(MOST_SAMPLES + 1).collect();
    let traffic = sent_trace(random, given.older, &given.map, MOST_SAMPLES + 1);
    for (seed, samples) in (0..).zip([cuts, traffic]) {
        let records = random.bytes(RECORD * 22_000);
        let longest = Given { session: to_bytes(&begun), samples, records, ..given.clone() };
        for page in [Against::PageAfter, Against::PageBefore] {
            comparison.begin(seed, page);
            compare_longest(comparison, longest.clone());
        }
    }
}

/// One sample too many; then as many as there may be, with room to spare, the
/// exact room, and a byte less.
fn compare_longest(comparison: &mut Comparison, mut given: Given) {
    for call in Call::READING {
        assert_eq!(comparison.call(call, &given).number, 5);
    }
    given.samples.truncate(MOST_SAMPLES);
    for call in Call::READING {
        let left = comparison.call(call, &given);
        assert_eq!(left.number, 0);
        let exact = RECORD * left.count as usize;
        let mut exactly = given.clone();
        exactly.records.truncate(exact);
        assert_eq!(comparison.call(call, &exactly).number, 0);
        exactly.records.truncate(exact - 1);
        assert_eq!(comparison.call(call, &exactly).number, 6);
    }
    *given.samples.last_mut().expect("there are samples") |= 0x40;
    for call in Call::READING {
        assert_eq!(comparison.call(call, &given).number, 5);
    }
}

/// The known case of document 01, written out: the calls of the library and
/// nothing else.
#[test]
fn the_printed_case_call_by_call() {
    let mut comparison = Comparison::new("calls::the_printed_case_call_by_call");
    comparison.begin(0, Against::PageAfter);
    let mut given = Given::opened(&simple_map(16));
    given.session = [0xEE; SESSION_SIZE];
    given.active = vec![0xAA; 16];
    let opened = comparison.call(Call::Open, &given);
    assert_eq!((opened.number, opened.active[0x000A]), (0, 0x00));
    given.go_on(&opened);
    // The 51 samples of a streaming write of 0x3C to 0x000A.
    given.samples = frame("0000 0000 0000 1010 0011 1100");
    given.records = vec![0xEE; 9];
    let read = comparison.call(Call::Read, &given);
    assert_eq!((read.number, read.count), (0, 1));
    assert_eq!(read.records, [0x01, 0x00, 0x0A, 0x3C, 0x3C, 0x01, 0x3C, 0xEE, 0xEE]);
    assert_eq!((read.active[0x000A], read.buffer[0x000A]), (0x3C, 0x00));
    assert_eq!(read.session, opened.session);
    assert_eq!((opened.words, read.words), (vec![0], vec![1 << 0x000A]));
    // Byte 1 is whole once 33 + 16 samples have been sent.
    let next = comparison.call(Call::NextRecord, &given);
    assert_eq!((next.number, next.count, next.taken), (0, 1, 49));
}
