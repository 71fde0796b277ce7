//! The form of a list, and number 14.

use couplingnut_tests::generate::setups::{list_of, Listed};

use super::{number, recorded, short_orders};

/// "A list that ends inside an order": a list of orders of several sizes, cut
/// everywhere.
#[test]
fn a_list_ends_where_an_order_ends() {
    let orders =
        [Listed::write(0x0010, &[1]), Listed::read(0x0020, 3), Listed::write(0x0030, &[7; 260])];
    let list = list_of(&orders);
    assert_eq!(list.len(), 9 + 8 + 268);
    for length in 0..=list.len() {
        let expected = if [0, 9, 17, 285].contains(&length) { 0 } else { 14 };
        assert_eq!(number(0, &list[..length]), expected, "{length} bytes");
    }
    // Both bytes of a length count.
    assert_eq!(number(0, &[0x01, 0x06, 1, 0, 0, 0x10, 0, 0]), 14);
    assert_eq!(number(0, &[0xFF, 0xFF, 1, 1, 0, 0x10, 0, 1]), 14);
    for byte in 0..=255 {
        assert_eq!(number(0, &[byte]), 14, "a single byte");
        assert_eq!(number(0, &[list.clone(), vec![byte]].concat()), 14, "a byte left over");
    }
}

#[test]
fn the_length_of_an_order_is_6_at_least() {
    for length in 0..=5 {
        let short = [vec![0, length], vec![1; usize::from(length)]].concat();
        for before in [0, 1, 63] {
            let list = [list_of(&short_orders(before)), short.clone()].concat();
            assert_eq!(number(0, &list), 14, "length {length} after {before} orders");
            let more = [list, list_of(&short_orders(1))].concat();
            assert_eq!(number(0, &more), 14, "length {length} before another");
        }
    }
    assert_eq!(number(0, &[0, 6, 1, 1, 0, 0x10, 0, 1]), 0);
}

#[test]
fn other_versions_are_refused_with_14() {
    for version in 0..=255 {
        for at in [0, 1, 63] {
            let mut parts: Vec<_> = short_orders(64).iter().map(Listed::bytes).collect();
            parts[at][2] = version;
            let expected = if version == 1 { 0 } else { 14 };
            assert_eq!(number(0, &parts.concat()), expected, "version {version} of order {at}");
        }
    }
}

#[test]
fn sixty_four_orders_pass_and_sixty_five_are_refused() {
    for settings in 0..=7 {
        assert_eq!(
            recorded(settings, &list_of(&short_orders(64)), 64 * 51).map(|s| s.len()),
            Ok(3_264)
        );
        assert_eq!(number(settings, &list_of(&short_orders(65))), 14);
        assert_eq!(number(settings, &list_of(&short_orders(66))), 14);
    }
    // More than the samples of one recording is 15, more orders is 14.
    let large = Listed::write(0x4000, &[0xA5; 1_000]);
    assert_eq!(number(0, &list_of(&vec![large.clone(); 64])), 15);
    assert_eq!(number(0, &list_of(&vec![large; 65])), 14);
}
