//! The call of Ask 10.

use crate::layout::ChipInC;

/// What is lent to it.
pub struct Lent<'a> {
    pub map: &'a [u8],
    pub chips: &'a mut [ChipInC],
    pub memory: &'a mut [u8],
    pub samples: &'a [u8],
    pub records: &'a mut [u8],
    /// How many records, afterwards.
    pub count: &'a mut u64,
}

/// The number.
pub fn read_several(lent: &mut Lent) -> Option<u32> {
    let Lent { map, chips, memory, samples, records, count } = lent;
    call_library!(couplingnut_read_several(
        map: &[u8], chips: &mut [ChipInC], memory: &mut [u8], samples: &[u8],
        records: &mut [u8], count: &mut u64
    ))
}
