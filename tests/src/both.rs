//! The public calls by both sides. Each gives the second implementation's
//! answer, once the library, where it is there, has given the same answer and
//! left the same: a test that says what document 01 asks says it of the product.

use std::cell::RefCell;

use crate::calls::{Call, Given, Memory};
use crate::guarded::{Against, Guarded};
use crate::layout::{from_bytes, to_bytes, SESSION_SIZE};
use crate::library;
use crate::made::{agreed, Agreed, NOT_WRITTEN};
use second::older::Older;
use second::reader::Banks;
use second::sender::Order;
use second::session::Session;
use second::{converter, frames, map, mend, reader, sender, setup, touched, Answer};

/// The most that is lent as words.
const MOST_BYTES: usize = 1 << 16;

/// The number of a map.
pub fn map_test(bytes: &[u8]) -> u8 {
    let number = map::map_test(bytes);
    if library::PRESENT {
        assert_eq!(library::map_test(bytes), u32::from(number), "the library on {bytes:02X?}");
    }
    number
}

/// The number of an older chip's map, with the part and top that are named.
pub fn map_test_older(older: Older, map: &[u8]) -> u8 {
    let second = |[map]: [&mut [u8]; 1]| Answer { number: map::map_test_by(older, map), count: 0 };
    let product = |[map]: [&mut [u8]; 1], length: &mut u64| {
        *length = 0;
        library::older::map_test(older, map)
    };
    match agreed([map], second, product) {
        Ok((answer, _)) => answer.number,
        Err(difference) => panic!("{older:X?}: {difference}"),
    }
}

pub fn open(map: &[u8], active: &mut [u8], buffer: &mut [u8]) -> (u8, Session) {
    open_by(None, map, active, buffer)
}

/// The same for any chip.
pub fn open_by(
    older: Option<Older>,
    map: &[u8],
    active: &mut [u8],
    buffer: &mut [u8],
) -> (u8, Session) {
    assert_library_agrees(Call::Open, || Given {
        older,
        map: map.to_vec(),
        session: [0xEE; SESSION_SIZE],
        active: active.to_vec(),
        buffer: buffer.to_vec(),
        words: Vec::new(),
        samples: Vec::new(),
        records: Vec::new(),
    });
    match older {
        None => reader::open(map, active, buffer),
        Some(older) => reader::open_by(older, map, active, buffer),
    }
}

/// A session that C can't hand over is left to the second implementation.
pub fn read_by(
    older: Option<Older>,
    map: &[u8],
    session: &mut Session,
    banks: Banks,
    samples: &[u8],
    records: &mut [u8],
) -> Answer {
    if from_bytes(&to_bytes(session)) == Some(*session) {
        assert_library_agrees(Call::Read, || Given {
            older,
            map: map.to_vec(),
            session: to_bytes(session),
            active: banks.active.to_vec(),
            buffer: banks.buffer.to_vec(),
            words: banks.words.to_vec(),
            samples: samples.to_vec(),
            records: records.to_vec(),
        });
    }
    match older {
        None => reader::read(map, session, banks, samples, records),
        Some(older) => reader::read_by(older, map, session, banks, samples, records),
    }
}

fn assert_library_agrees(call: Call, given: impl Fn() -> Given) {
    thread_local! {
        static MEMORY: RefCell<Memory> = RefCell::default();
    }
    if library::PRESENT {
        let given = given();
        let left = MEMORY.with_borrow_mut(|memory| memory.product(call, &given));
        if let Some(left) = left {
            assert_eq!(left, given.expected(call), "the library's {call:?} of {given:02X?}");
        }
    }
}

pub fn send(order: &Order, outgoing: &mut [u8]) -> Answer {
    let mut again = outgoing.to_vec();
    let answer = sender::send(order, outgoing);
    if library::PRESENT {
        let found = library::send(order, &mut again);
        let expected = (u32::from(answer.number), answer.count as u64);
        assert_eq!(found, expected, "the library on {order:X?}");
        assert!(again == outgoing, "other samples from the library: {order:X?}");
    }
    answer
}

pub fn send_older(top: u64, order: &Order, out: &mut [u8]) -> Answer {
    keep_last(try_send_older(top, order, out), out)
}

/// The same, which tells a difference.
pub fn try_send_older(top: u64, order: &Order, out: &[u8]) -> Agreed<2> {
    let second = |[_, out]: [&mut [u8]; 2]| sender::send_older(top, order, out);
    let product = |[data, out]: [&mut [u8]; 2], samples: &mut u64| {
        library::older::send(top, &Order { data, ..*order }, out, samples)
    };
    agreed([order.data, out], second, product)
}

pub fn to_version_1(map: &[u8], out: &mut [u8]) -> Answer {
    let second = |[map, out]: [&mut [u8]; 2]| converter::to_version_1(map, out);
    let product = |[map, out]: [&mut [u8]; 2], length: &mut u64| {
        library::converter::to_version_1(map, out, length)
    };
    keep_last(agreed([map, out], second, product), out)
}

pub fn to_version_2(map: &[u8], out: &mut [u8]) -> Answer {
    let second = |[map, out]: [&mut [u8]; 2]| converter::to_version_2(map, out);
    let product = |[map, out]: [&mut [u8]; 2], length: &mut u64| {
        library::converter::to_version_2(map, out, length)
    };
    keep_last(agreed([map, out], second, product), out)
}

pub fn send_setup(settings: u64, list: &[u8], out: &mut [u8]) -> Answer {
    keep_last(try_send_setup(settings, list, out), out)
}

/// The same, which tells a difference.
pub fn try_send_setup(settings: u64, list: &[u8], out: &[u8]) -> Agreed<2> {
    let second = |[list, out]: [&mut [u8]; 2]| setup::send_setup(settings, list, out);
    let product = |[list, out]: [&mut [u8]; 2], samples: &mut u64| {
        library::setup::send_setup(settings, list, out, samples)
    };
    agreed([list, out], second, product)
}

/// The map and the list take what the call left there.
pub fn mend(map: &mut [u8], list: &mut [u8]) -> Answer {
    let left = try_mend(map, list);
    let (answer, lent) = left.unwrap_or_else(|difference| panic!("{difference}"));
    map.copy_from_slice(&lent[0]);
    list.copy_from_slice(&lent[1]);
    answer
}

/// The same, which tells a difference.
pub fn try_mend(map: &[u8], list: &[u8]) -> Agreed<2> {
    let second = |[map, list]: [&mut [u8]; 2]| mend::mend(map, list);
    let product =
        |[map, list]: [&mut [u8]; 2], length: &mut u64| library::mend::mend(map, list, length);
    agreed([map, list], second, product)
}

pub fn fewest_frames(ascending: u64, addresses: &[u16], bytes: &[u8], out: &mut [u8]) -> Answer {
    keep_last(try_fewest_frames(ascending, addresses, bytes, out), out)
}

/// The same, which tells a difference.
pub fn try_fewest_frames(ascending: u64, addresses: &[u16], bytes: &[u8], out: &[u8]) -> Agreed<3> {
    let in_memory: Vec<u8> = addresses.iter().flat_map(|address| address.to_ne_bytes()).collect();
    let second = |[_, bytes, out]: [&mut [u8]; 3]| {
        frames::fewest_frames(ascending != 0, addresses, bytes, out)
    };
    let product = |[addresses, bytes, out]: [&mut [u8]; 3], length: &mut u64| {
        library::frames::fewest_frames(ascending, addresses, bytes, out, length)
    };
    agreed([&in_memory, bytes, out], second, product)
}

/// The number; the words take what the call left there.
pub fn touched_mark(words: &mut [u64]) -> u8 {
    let given = words.to_vec();
    let number = touched::mark(words);
    assert_words_agree(&given, (number, 0), words, |words, told| {
        *told = 0;
        library::touched::mark(words)
    });
    number
}

/// The number, and how many registers were touched.
pub fn touched_count(words: &[u64]) -> (u8, u64) {
    let answer = touched::count(words);
    assert_words_agree(words, answer, words, |words, told| library::touched::count(words, told));
    answer
}

/// The number, and the address of the next register that was touched.
pub fn touched_next(words: &[u64], from: u64) -> (u8, u64) {
    let answer = touched::next(words, from);
    assert_words_agree(words, answer, words, |words, told| {
        library::touched::next(words, from, told)
    });
    answer
}

/// That the library's call on words, in memory against either inaccessible page, has
/// this answer and leaves these words.
fn assert_words_agree(
    words: &[u64],
    (number, answer): (u8, u64),
    left: &[u64],
    product: impl Fn(&mut [u64], &mut u64) -> Option<u32>,
) {
    thread_local! {
        static MEMORY: RefCell<(Guarded, Guarded)> =
            RefCell::new((Guarded::new(MOST_BYTES), Guarded::new(8)));
    }
    let expected = (u32::from(number), answer);
    for against in [Against::PageAfter, Against::PageBefore] {
        MEMORY.with_borrow_mut(|(lent, told)| {
            let lent = lent.hold_words(words, against);
            let told = told.hold_number(NOT_WRITTEN, against);
            if let Some(number) = product(lent, told) {
                assert_eq!((number, *told), expected, "the library on {words:016X?}");
                assert_eq!(lent, left, "what the library left of {words:016X?}");
            }
        });
    }
}

/// The answer; the buffer, which is lent last, takes what the call left there.
fn keep_last<const N: usize>(agreed: Agreed<N>, out: &mut [u8]) -> Answer {
    let (answer, lent) = agreed.unwrap_or_else(|difference| panic!("{difference}"));
    out.copy_from_slice(&lent[N - 1]);
    answer
}
