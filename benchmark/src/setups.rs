//! A setup in one call: by both sides, and against its orders one by one.

#![allow(unsafe_code)]

use std::fmt::Write;

use couplingnut_tests::generate::random::Random;
use couplingnut_tests::generate::setups::{list_of, samples_of, Listed};
use couplingnut_tests::library;
use second::sender::{self, Order};
use second::setup;

use crate::counting;
use crate::sides::{Side, Space};
use crate::timing::alternate;
use crate::works::{work, SETUPS};

const SETTINGS: u64 = 0;
/// As many as a unit takes.
const ORDERS: usize = 40;
const START: usize = 0x2000;
/// From one start to the next.
const APART: usize = 64;
const ROUNDS: usize = 301;

pub struct Setup {
    list: Vec<u8>,
    /// The same orders, each ready to be sent. Their data is never given back.
    orders: Vec<Order<'static>>,
    pub samples: usize,
}

impl Setup {
    /// Orders of so many bytes each.
    pub fn new(bytes: usize) -> Self {
        let mut random = Random::new(7);
        let write = |i| Listed::write((START + APART * i) as u16, &random.bytes(bytes));
        let listed: &[Listed] = (0..ORDERS).map(write).collect::<Vec<_>>().leak();
        let orders = listed.iter().map(|order| order.order(SETTINGS)).collect();
        Setup { list: list_of(listed), orders, samples: samples_of(SETTINGS, listed) }
    }

    /// All orders in one call.
    pub fn send_by(&self, side: Side, space: &mut Space) {
        match side {
            Side::Proved => {
                let Space { out, count, .. } = space;
                let sent = library::setup::send_setup(SETTINGS, &self.list, out, count);
                space.number = sent.expect("the library is there");
            }
            Side::Second => second_send_setup(&self.list, space),
        }
    }

    /// The same, one by one.
    pub fn each_by(&self, side: Side, space: &mut Space) {
        match side {
            Side::Proved => proved_each(&self.orders, space),
            Side::Second => second_each(&self.orders, space),
        }
    }
}

#[no_mangle]
#[inline(never)]
fn second_send_setup(list: &[u8], space: &mut Space) {
    let answer = setup::send_setup(SETTINGS, list, &mut space.out);
    (space.number, space.count) = (answer.number.into(), answer.count as u64);
}

#[no_mangle]
#[inline(never)]
fn proved_each(orders: &[Order], space: &mut Space) {
    (space.number, space.count) = (0, 0);
    for order in orders {
        let mut samples = 0;
        let rest = &mut space.out[space.count as usize..];
        space.number |= library::send_into(order, rest, &mut samples);
        space.count += samples;
    }
}

#[no_mangle]
#[inline(never)]
fn second_each(orders: &[Order], space: &mut Space) {
    (space.number, space.count) = (0, 0);
    for order in orders {
        let answer = sender::send(order, &mut space.out[space.count as usize..]);
        space.number |= u32::from(answer.number);
        space.count += answer.count as u64;
    }
}

/// One call against one by one, of the proved side; the costs are those of an order.
pub fn measure(counts: bool) -> String {
    let mut text = String::from(
        "| a setup of 40 orders, bytes of each | one call against one by one | ns in one call | ns one by one | instructions in one call | instructions one by one |\n\
         |---|---|---|---|---|---|\n",
    );
    for (setup, each, bytes) in SETUPS {
        let [setup, each] =
            [setup, each].map(|name| work(name, 0).expect("each name has its work"));
        let (mut joined, mut apart) = (setup.space(), each.space());
        let times = alternate(
            ROUNDS,
            || setup.call(Side::Proved, &mut joined),
            || each.call(Side::Proved, &mut apart),
        );
        assert!(joined == apart, "{}: the joined recordings are another", setup.name);
        let of_order = |all: f64| all / ORDERS as f64;
        let [one, many] = [times.proved, times.second].map(|seconds| of_order(seconds * 1e9));
        let count = |work| of_order(counting::of_call(work, Side::Proved) * setup.units as f64);
        let counted = match counts {
            true => format!("{:.0} | {:.0}", count(&setup), count(&each)),
            false => "- | -".into(),
        };
        writeln!(text, "| {bytes} | **{:.2}** | {one:.1} | {many:.1} | {counted} |", times.ratio)
            .expect("a string grows");
    }
    text
}
