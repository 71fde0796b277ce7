//! The call of Ask 6.

/// The number; the count of samples is left in its place.
pub fn send_setup(settings: u64, list: &[u8], out: &mut [u8], samples: &mut u64) -> Option<u32> {
    call_library!(couplingnut_send_setup(
        settings: u64, list: &[u8], out: &mut [u8], samples: &mut u64
    ))
}
