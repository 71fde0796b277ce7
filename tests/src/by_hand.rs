//! Samples by hand: bits written out, as document 01 clocks them.

/// "For each bit b, 4b then 4b + 2", with nothing around it. Spaces are no bits.
pub fn clocked(bits: &str) -> Vec<u8> {
    clocked_on(4, bits)
}

/// The same on the line of this level.
pub fn clocked_on(line: u8, bits: &str) -> Vec<u8> {
    let level = |bit| if bit == '1' { line } else { 0 };
    bits.chars().filter(|&c| c != ' ').flat_map(|bit| [level(bit), level(bit) + 2]).collect()
}

/// The same as one frame.
pub fn frame(bits: &str) -> Vec<u8> {
    [&[0x00][..], &clocked(bits), &[0x00, 0x01]].concat()
}

/// A number of so many bits, as it is clocked.
pub fn clocked_number(value: u16, width: u32, lsb_first: bool) -> Vec<u8> {
    let bit = |i| if value >> i & 1 == 1 { '1' } else { '0' };
    let lowest_first: Vec<char> = (0..width).map(bit).collect();
    let bits: String = match lsb_first {
        true => lowest_first.into_iter().collect(),
        false => lowest_first.into_iter().rev().collect(),
    };
    clocked(&bits)
}
