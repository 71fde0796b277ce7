//! Inputs near a given one.

/// Bytes of which one was altered, or given the value that it has.
pub struct Altered {
    pub at: usize,
    pub value: u8,
    pub bytes: Vec<u8>,
}

/// Each byte in turn takes every value.
pub fn altered(bytes: &[u8]) -> impl Iterator<Item = Altered> + '_ {
    let with = move |at: usize, value| {
        let mut bytes = bytes.to_vec();
        bytes[at] = value;
        Altered { at, value, bytes }
    };
    (0..bytes.len()).flat_map(move |at| (0..=255).map(move |value| with(at, value)))
}

/// Every length that is less.
pub fn cut(bytes: &[u8]) -> impl Iterator<Item = Vec<u8>> + '_ {
    (0..bytes.len()).map(|length| bytes[..length].to_vec())
}
