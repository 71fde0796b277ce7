//! The recording of a list: what it is, and what reading it back gives.

use couplingnut_tests::by_hand::frame;
use couplingnut_tests::chip::{sent, settings_of, Chip};
use couplingnut_tests::generate::maps::{good_map, simple_map};
use couplingnut_tests::generate::random::Random;
use couplingnut_tests::generate::setups::{good_setup, list_of, samples_of, Listed};

use super::{recorded, ROOMY};

#[test]
fn two_orders_by_hand() {
    let write = [0x00, 0x08, 0x01, 0x00, 0x00, 0x0A, 0x00, 0x02, 0x3C, 0x81];
    let read = [0x00, 0x06, 0x01, 0x01, 0x00, 0x10, 0x00, 0x01];
    let list = [&write[..], &read].concat();
    assert_eq!(list, list_of(&[Listed::write(0x000A, &[0x3C, 0x81]), Listed::read(0x0010, 1)]));

    let highest_first =
        [frame("0000000000001010 00111100 10000001"), frame("1000000000010000 00000000")].concat();
    assert_eq!(highest_first.len(), 67 + 51);
    assert_eq!(recorded(0, &list, ROOMY), Ok(highest_first.clone()));
    assert_eq!(recorded(2, &list, ROOMY), Ok(highest_first), "by the start alone");

    let lowest_first =
        [frame("0101000000000000 00111100 10000001"), frame("0000100000000001 00000000")].concat();
    assert_eq!(recorded(1, &list, ROOMY), Ok(lowest_first));

    let single_down = [
        frame("0000000000001010 00111100 0000000000001001 10000001"),
        frame("1000000000010000 00000000"),
    ];
    assert_eq!(recorded(4, &list, ROOMY), Ok(single_down.concat()));
    let single_up = [
        frame("0000000000001010 00111100 0000000000001011 10000001"),
        frame("1000000000010000 00000000"),
    ];
    assert_eq!(recorded(6, &list, ROOMY), Ok(single_up.concat()));
}

#[test]
fn an_empty_list_gives_no_samples_with_any_settings() {
    for settings in (0..=300).chain([1 << 16, 1 << 32, (1 << 32) + 8, u64::MAX]) {
        for room in [0, 1, 51, ROOMY] {
            assert_eq!(recorded(settings, &[], room), Ok(vec![]), "{settings}");
        }
    }
}

#[test]
fn the_recordings_of_the_orders_are_joined() {
    let mut random = Random::new(1);
    for _ in 0..3_000 {
        let (settings, orders) = good_setup(&mut random);
        let joined: Vec<u8> =
            orders.iter().flat_map(|order| sent(&order.order(settings))).collect();
        assert_eq!(joined.len(), samples_of(settings, &orders));
        assert_eq!(recorded(settings, &list_of(&orders), ROOMY), Ok(joined), "{orders:X?}");
    }
}

/// The addresses that an order writes or reads.
fn addresses(order: &Listed, settings: u64) -> Vec<u16> {
    let step = if settings & 2 != 0 { 1 } else { 0x7FFF };
    (0..order.count)
        .map(|i| (u32::from(order.start) + u32::from(i) * step) as u16 & 0x7FFF)
        .collect()
}

/// What demand 2 asks of a list "where no order but the last writes 0x0000 or
/// 0x0001".
#[test]
fn reading_a_recording_back_gives_the_orders() {
    let mut random = Random::new(4);
    let mut last_configures = 0;
    for _ in 0..3_000 {
        let (settings, mut orders) = good_setup(&mut random);
        let configures = |order: &Listed| {
            order.direction == 0 && addresses(order, settings).iter().any(|&address| address < 2)
        };
        let last = orders.pop();
        orders.retain(|order| !configures(order));
        last_configures += usize::from(last.as_ref().is_some_and(configures));
        orders.extend(last);

        let count = random.between(16, 40);
        let mut chip = Chip::opened(&good_map(&mut random, count));
        chip.session.settings = settings_of(settings);
        let samples = recorded(settings, &list_of(&orders), ROOMY).expect("a good list");
        let lines = chip.read(&samples);
        let mut expected = Vec::new();
        for order in &orders {
            for (i, address) in addresses(order, settings).into_iter().enumerate() {
                expected.push(match order.direction {
                    0 => format!("W {address:04X} {:02X}", order.data[i]),
                    _ => format!("R {address:04X}"),
                });
            }
        }
        assert_eq!(lines.len(), expected.len(), "{orders:X?}");
        for (line, start) in lines.iter().zip(&expected) {
            assert!(line.starts_with(start), "{line} for {start}");
        }
    }
    assert!(last_configures >= 100, "{last_configures} lists end with a configuration");
}

/// The printed case of document 01 and a read of the same register, as one setup.
#[test]
fn a_setup_is_read_by_one_call() {
    let list = list_of(&[Listed::write(0x000A, &[0x3C]), Listed::read(0x000A, 1)]);
    let samples = recorded(0, &list, ROOMY).expect("a good list");
    assert_eq!(samples.len(), 102);
    let lines = Chip::opened(&simple_map(16)).read(&samples);
    assert_eq!(lines, ["W 000A 3C 3C 1 3C", "R 000A 3C 00 1 00"]);
}
