//! The call of Ask 13.

/// The number; the length of the orders is left in its place. The addresses are
/// lent as the bytes that they are in memory.
pub fn fewest_frames(
    ascending: u64,
    addresses: &[u8],
    bytes: &[u8],
    out: &mut [u8],
    length: &mut u64,
) -> Option<u32> {
    // SAFETY: every two bytes are a number.
    let (before, addresses, after) = unsafe { addresses.align_to::<u16>() };
    assert!(before.is_empty() && after.is_empty(), "whole numbers in their places");
    call_library!(couplingnut_fewest_frames(
        ascending: u64, addresses: &[u16], bytes: &[u8], out: &mut [u8], length: &mut u64
    ))
}
