//! The fewest frames that write a list of registers (document 02, Ask 13): an order
//! for each stretch of neighbours, in the form that `setup` takes.

use super::setup::VERSION;
use super::Answer;

const MOST_REGISTERS: usize = 1_000;
const LAST_ADDRESS: u16 = 0x7FFF;
/// The registers that no such list has: there is no map to ask.
const CONTROLS: [u16; 3] = [0x0000, 0x0001, 0x000F];
const WRITE: u8 = 0;
/// What an order has before its data: length, version, direction, start, count.
const HEAD: usize = 8;

/// Puts streaming write orders, by rising start, at the start of the outgoing
/// buffer, and answers how many bytes they are. With a refusal (19, 11) the buffer
/// stays as it was.
pub fn fewest_frames(
    ascending: bool,
    addresses: &[u16],
    mut bytes: &[u8],
    out: &mut [u8],
) -> Answer {
    if !can_be_written(addresses) || addresses.len() != bytes.len() {
        return Answer::refused(19);
    }
    let stretches = || addresses.chunk_by(|&low, &high| low + 1 == high);
    let length = HEAD * stretches().count() + bytes.len();
    let Some(mut rest) = out.get_mut(..length) else {
        return Answer::refused(11);
    };
    for stretch in stretches() {
        let data = bytes.split_off(..stretch.len()).expect("a byte for each address");
        let order = rest.split_off_mut(..HEAD + stretch.len()).expect("room for each order");
        put_order(stretch, data, ascending, order);
    }
    Answer::done(length)
}

/// What number 19 asks of the addresses: some, not too many, strictly rising,
/// none of them beyond the last or a control register.
fn can_be_written(addresses: &[u16]) -> bool {
    (1..=MOST_REGISTERS).contains(&addresses.len())
        && addresses.is_sorted_by(|low, high| low < high)
        && addresses.iter().all(|address| *address <= LAST_ADDRESS && !CONTROLS.contains(address))
}

/// One order for neighbours in rising order: it starts at the one end or the other.
fn put_order(stretch: &[u16], data: &[u8], ascending: bool, order: &mut [u8]) {
    let (count, following) = (stretch.len() as u16, (HEAD - 2 + data.len()) as u16);
    let start = if ascending { stretch[0] } else { stretch[stretch.len() - 1] };
    order[..2].copy_from_slice(&following.to_be_bytes());
    order[2..4].copy_from_slice(&[VERSION, WRITE]);
    order[4..6].copy_from_slice(&start.to_be_bytes());
    order[6..HEAD].copy_from_slice(&count.to_be_bytes());
    order[HEAD..].copy_from_slice(data);
    if !ascending {
        order[HEAD..].reverse();
    }
}
