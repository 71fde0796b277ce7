//! Which registers were touched (document 02, Ask 7): a bit a register in lent words,
//! that of address a being bit a mod 64 of word a div 64. `registers` sets them; the
//! calls here are about words alone and know no map.

/// How many registers a word has bits for.
pub const BITS: usize = 64;
/// What the largest map needs, and the most that these calls take.
const MOST_WORDS: usize = 128;

/// How many words a map of so many registers needs.
pub const fn words_for(count: usize) -> usize {
    count.div_ceil(BITS)
}

#[inline(always)]
pub(super) fn touch(words: &mut [u64], address: u16) {
    let at = usize::from(address);
    words[at / BITS] |= 1 << (at % BITS);
}

/// Clears all words, or gives number 16 and clears none.
pub fn mark(words: &mut [u64]) -> u8 {
    if words.len() > MOST_WORDS {
        return 16;
    }
    words.fill(0);
    0
}

/// The number, and how many bits are set.
pub fn count(words: &[u64]) -> (u8, u64) {
    if words.len() > MOST_WORDS {
        return (16, 0);
    }
    (0, words.iter().map(|word| u64::from(word.count_ones())).sum())
}

/// The number, and the first address from this one on whose bit is set, or 64 times
/// the number of words.
pub fn next(words: &[u64], from: u64) -> (u8, u64) {
    if words.len() > MOST_WORDS {
        return (16, 0);
    }
    let end = (BITS * words.len()) as u64;
    if from >= end {
        return (0, end);
    }
    let (first, bit) = (from as usize / BITS, from as usize % BITS);
    let begun = words[first] & (u64::MAX << bit);
    let rest = std::iter::once(begun).chain(words[first + 1..].iter().copied());
    let found = (first..).zip(rest).find(|&(_, word)| word != 0);
    let address = |(at, word): (usize, u64)| (BITS * at) as u64 + u64::from(word.trailing_zeros());
    (0, found.map_or(end, address))
}
