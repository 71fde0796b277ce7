//! Words of touched registers (document 02, Ask 7), and the banks beside them.

use super::random::Random;
use second::touched::words_for;

/// Both banks of so many registers, and their words.
pub fn any_banks(random: &mut Random, registers: usize) -> (Vec<u8>, Vec<u8>, Vec<u64>) {
    (random.bytes(registers), random.bytes(registers), any_words(random, registers))
}

/// The words of so many registers, bits at that number and beyond among those set.
pub fn any_words(random: &mut Random, registers: usize) -> Vec<u64> {
    some_words(random, words_for(registers))
}

/// So many words: nothing set, little, half, or all.
pub fn some_words(random: &mut Random, length: usize) -> Vec<u64> {
    let kind = random.below(8);
    (0..length)
        .map(|_| match kind {
            0 => 0,
            1 => u64::MAX,
            2 => random.number() & random.number() & random.number() & random.number(),
            3 => random.pick(&[0, 0, 0, 1, 1 << 63, 1 << 31, 1 << 32]),
            _ => random.number(),
        })
        .collect()
}

/// Any number of words but this one: its neighbours, none, the most that there can be,
/// one more than that, and ones of which a narrow type would keep the right number.
pub fn another_length(random: &mut Random, right: usize) -> usize {
    let others = [0, right - 1, right + 1, 128, 129, right + 256, 1_000];
    loop {
        let other = random.pick(&others);
        if other != right {
            return other;
        }
    }
}
