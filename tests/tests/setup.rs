//! A whole setup in one call, by both sides: Ask 6 of document 02.

mod form;
mod lists;
mod orders;
mod recordings;
mod samples;

use couplingnut_tests::both::send_setup;
use couplingnut_tests::generate::setups::Listed;
use couplingnut_tests::made::{held_for_samples, made_in};

/// More than any list takes.
const ROOMY: usize = 65_536 + 7;

/// The recording that the call makes in so much room, or the number that refuses it.
fn recorded(settings: u64, list: &[u8], room: usize) -> Result<Vec<u8>, u8> {
    made_in(&held_for_samples(room), |out| send_setup(settings, list, out))
}

fn number(settings: u64, list: &[u8]) -> u8 {
    recorded(settings, list, ROOMY).err().unwrap_or(0)
}

/// So many orders of one byte each, apart from each other.
fn short_orders(many: usize) -> Vec<Listed> {
    (0..many).map(|i| Listed::write(0x0100 + 2 * i as u16, &[i as u8])).collect()
}
