//! The calls of Ask 7 on words alone.

pub fn mark(words: &mut [u64]) -> Option<u32> {
    call_library!(couplingnut_touched_mark(words: &mut [u64]))
}

/// The number; the count is left in its place.
pub fn count(words: &[u64], count: &mut u64) -> Option<u32> {
    call_library!(couplingnut_touched_count(words: &[u64], count: &mut u64))
}

/// The number; the address is left in its place.
pub fn next(words: &[u64], from: u64, address: &mut u64) -> Option<u32> {
    call_library!(couplingnut_touched_next(words: &[u64], from: u64, address: &mut u64))
}
