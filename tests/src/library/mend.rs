//! The call of Ask 12.

/// The number; the length of the list is left in its place.
pub fn mend(map: &mut [u8], list: &mut [u8], length: &mut u64) -> Option<u32> {
    call_library!(couplingnut_mend(map: &mut [u8], list: &mut [u8], length: &mut u64))
}
