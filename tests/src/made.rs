//! Calls that make something in a lent buffer, by both sides: the number, the
//! length, and every byte of lent memory afterwards are compared.

use std::cell::RefCell;

use crate::environment::{differ, number_from};
use crate::guarded::{Against, Guarded};
use crate::library;
use second::Answer;

/// What the length holds before a call, so that one that is not written is seen.
pub const NOT_WRITTEN: u64 = 0xDEAD_BEEF_DEAD_BEEF;

/// What a call makes in a buffer that held these bytes, or the number that refuses it.
/// Whatever it does not make stays as it was.
pub fn made_in(before: &[u8], call: impl FnOnce(&mut [u8]) -> Answer) -> Result<Vec<u8>, u8> {
    let mut out = before.to_vec();
    let Answer { number, count } = call(&mut out);
    assert_eq!(out[count..], before[count..], "the rest is unchanged");
    out.truncate(count);
    match number {
        0 => Ok(out),
        _ => {
            assert_eq!(count, 0, "a refusal says that it made nothing");
            Err(number)
        }
    }
}

/// What a buffer of so many bytes holds before a call: none is like its neighbours.
pub fn held(room: usize) -> Vec<u8> {
    (0..room).map(|i| (i % 251) as u8 ^ 0xC3).collect()
}

/// The same of a buffer for samples: bit 4 is set in each byte, and so none of them is one.
pub fn held_for_samples(room: usize) -> Vec<u8> {
    (0..room).map(|i| (i % 251) as u8 | 0x10).collect()
}

/// That both sides agree on the inputs of so many seeds. The call of a seed lists its input
/// beside a difference, which is kept and fails the test, named by its path. How often each
/// number was given goes to `reached`, unless the environment asks for fewer seeds.
pub fn assert_agreed<const N: usize>(
    test: &str,
    seeds: u64,
    reached: fn(&[u64]),
    call: impl Fn(u64) -> Result<(Answer, [Vec<u8>; N]), (String, String)>,
) {
    library::assert_present();
    let (first, asked) = (number_from("SEED", 0), number_from("CALLS", seeds).min(seeds));
    let mut given = [0; 20];
    for seed in first..first + asked {
        match call(seed) {
            Ok((answer, _)) => given[usize::from(answer.number)] += 1,
            Err((difference, listing)) => differ(test, seed, &difference, &listing),
        }
    }
    if asked == seeds {
        reached(&given);
    }
}

/// The most bytes that are lent as one piece.
const LARGEST: usize = 1 << 17;

/// The second implementation's answer and all lent memory after it, or how the
/// library differs from that.
pub type Agreed<const N: usize> = Result<(Answer, [Vec<u8>; N]), String>;

/// A call on these lent bytes by the second implementation and, if it has the
/// call, by the library, in memory against an inaccessible page.
pub fn agreed<const N: usize>(
    lent: [&[u8]; N],
    second: impl FnOnce([&mut [u8]; N]) -> Answer,
    product: impl FnOnce([&mut [u8]; N], &mut u64) -> Option<u32>,
) -> Agreed<N> {
    thread_local! {
        static MEMORY: RefCell<([Guarded; 3], Guarded)> =
            RefCell::new(([(); 3].map(|()| Guarded::new(LARGEST)), Guarded::new(8)));
    }
    let mut expected = lent.map(<[u8]>::to_vec);
    let answer = second(expected.each_mut().map(Vec::as_mut_slice));
    MEMORY.with_borrow_mut(|(memory, length)| {
        let even = lent.iter().map(|bytes| bytes.len()).sum::<usize>().is_multiple_of(2);
        let against = if even { Against::PageBefore } else { Against::PageAfter };
        let mut memory = memory.iter_mut();
        let mut found =
            lent.map(|bytes| memory.next().expect("three pieces are enough").hold(bytes, against));
        let length = length.hold_number(NOT_WRITTEN, against);
        let Some(number) = product(found.each_mut().map(|piece| &mut **piece), length) else {
            return Ok(());
        };
        let told = (u32::from(answer.number), answer.count as u64);
        if (number, *length) != told {
            return Err(format!(
                "the library gave {:?} for {told:?} on {lent:02X?}",
                (number, *length)
            ));
        }
        match (0..N).find(|&i| found[i] != expected[i]) {
            None => Ok(()),
            Some(i) => Err(format!(
                "the library left {:02X?} for {:02X?} in piece {i} of {lent:02X?}",
                found[i], expected[i]
            )),
        }
    })?;
    Ok((answer, expected))
}
