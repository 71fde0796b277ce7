//! A whole setup in one call (document 02, Ask 6): a list of orders, and the one
//! recording of them all.

use super::sender::{self, Order};
use super::Answer;

/// The version of an order's form.
pub(super) const VERSION: u8 = 1;
const MOST_ORDERS: usize = 64;
/// The most samples of one recording.
const MOST_SAMPLES: usize = 65_536;

/// Puts the samples of all orders, one after the other, at the start of the
/// outgoing buffer. With a refusal (14, 7 to 10, 15, 11) it stays as it was.
pub fn send_setup(settings: u64, list: &[u8], outgoing: &mut [u8]) -> Answer {
    let Some(orders) = orders_of(settings, list) else {
        return Answer::refused(14);
    };
    if let Some(bad) = orders.iter().map(Order::number).find(|&number| number != 0) {
        return Answer::refused(bad);
    }
    let total = orders.iter().map(Order::length).sum();
    if total > MOST_SAMPLES {
        return Answer::refused(15);
    }
    if outgoing.len() < total {
        return Answer::refused(11);
    }
    let mut at = 0;
    for order in &orders {
        at += sender::send(order, &mut outgoing[at..]).count;
    }
    Answer::done(at)
}

/// The orders of a list that has the form of one, good or bad.
fn orders_of(settings: u64, mut list: &[u8]) -> Option<Vec<Order<'_>>> {
    let mut orders = Vec::new();
    while !list.is_empty() {
        let (order, rest) = first_order(settings, list)?;
        orders.push(order);
        list = rest;
    }
    (orders.len() <= MOST_ORDERS).then_some(orders)
}

/// The first order of a list, and the list after it: a length of what follows,
/// then version, direction, start, count and data.
fn first_order(settings: u64, list: &[u8]) -> Option<(Order<'_>, &[u8])> {
    let (length, rest) = list.split_first_chunk()?;
    let (whole, rest) = rest.split_at_checked(usize::from(u16::from_be_bytes(*length)))?;
    let &[VERSION, direction, s1, s0, c1, c0, ref data @ ..] = whole else {
        return None;
    };
    let start = u64::from(u16::from_be_bytes([s1, s0]));
    let count = u64::from(u16::from_be_bytes([c1, c0]));
    Some((Order { direction: u64::from(direction), settings, start, count, data }, rest))
}
