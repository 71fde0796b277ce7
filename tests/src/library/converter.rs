//! The calls of Ask 3.

/// The number; the length of the map made is left in its place.
pub fn to_version_1(map: &[u8], out: &mut [u8], length: &mut u64) -> Option<u32> {
    call_library!(couplingnut_to_version_1(map: &[u8], out: &mut [u8], length: &mut u64))
}

/// As `to_version_1`.
pub fn to_version_2(map: &[u8], out: &mut [u8], length: &mut u64) -> Option<u32> {
    call_library!(couplingnut_to_version_2(map: &[u8], out: &mut [u8], length: &mut u64))
}
