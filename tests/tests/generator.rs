//! That the generated inputs reach all that document 01 speaks of. A comparison
//! of two programs on inputs that reach nothing would be worth nothing.

use std::collections::BTreeSet;

use couplingnut_tests::generate;
use couplingnut_tests::generate::maps::entry_at;
use second::report::report;

const INPUTS: u64 = 3_000;

/// The reports of the first inputs, with the length of each input's trace as
/// far as its map tells.
fn reports() -> impl Iterator<Item = (usize, String)> {
    (0..INPUTS).map(|seed| {
        let input = generate::input(seed);
        let count = input.get(3..5).map_or(0, |n| usize::from(u16::from_be_bytes([n[0], n[1]])));
        let text = String::from_utf8(report(&input)).expect("a report is ASCII");
        (input.len().saturating_sub(entry_at(&input, count)), text)
    })
}

#[test]
fn the_same_seed_gives_the_same_input() {
    assert_eq!(generate::input(77), generate::input(77));
    assert_ne!(generate::input(77), generate::input(78));
}

#[test]
fn every_kind_of_line_is_reached() {
    let mut seen = BTreeSet::new();
    for (_, text) in reports() {
        for line in text.lines() {
            seen.insert(match line.split_once(' ').expect("every line has two words") {
                ("W", rest) => {
                    let moved = if rest.ends_with(" 00") { "nothing" } else { "some bits" };
                    format!("W effect {}, {moved} moved", &rest[11..12])
                }
                ("R", rest) => format!("R {}", &rest[11..]),
                ("C", rest) => format!("C {}", &rest[5..]),
                ("refused", number) => format!("refused {number}"),
                (word, _) => word.to_string(),
            });
        }
    }
    let mut all: BTreeSet<String> = ["map", "records"].map(String::from).into();
    all.extend((0..=5).map(|effect| format!("W effect {effect}, nothing moved")));
    all.extend((1..=2).map(|effect| format!("W effect {effect}, some bits moved")));
    all.extend((0..=1).map(|unequal| format!("R {unequal} 00")));
    all.extend((1..=15).map(|bits| format!("C {bits:02X} 00 0 00")));
    all.extend((1..=7).map(|bits| format!("C {bits:02X} 01 0 00")));
    all.extend([2, 3, 5].map(|number| format!("refused {number}")));
    assert_eq!(seen, all);
}

#[test]
fn lengths_around_a_piece_are_reached() {
    let lengths: BTreeSet<usize> =
        reports().filter(|(_, text)| text.contains("records")).map(|(length, _)| length).collect();
    for length in [0, 1, 4_095, 4_096, 4_097, 8_191, 8_192, 8_193] {
        assert!(lengths.contains(&length), "no trace of {length} samples");
    }
    assert!(lengths.iter().any(|length| (65_534..=65_538).contains(length)));
}

#[test]
fn a_bad_sample_comes_in_later_pieces_too() {
    let lines_before = |text: &str| text.lines().count() > 2 && text.ends_with("refused 5\n");
    let late = reports().filter(|(_, text)| lines_before(text)).count();
    assert!(late >= 10, "{late} of {INPUTS} inputs");
}

#[test]
fn maps_of_every_size_are_reached() {
    let counts: BTreeSet<usize> = reports()
        .filter_map(|(_, text)| text.strip_prefix("map ")?.split('\n').next()?.parse().ok())
        .collect();
    assert!(counts.contains(&16) && counts.contains(&8_192));
    assert!(counts.range(17..100).count() >= 40 && counts.range(1_000..8_192).count() >= 10);
}

/// A byte that is not its own mirror, at 0x0000: with no setting on, and with some.
#[test]
fn halves_of_0x0000_that_disagree_are_reached() {
    let mut readings = BTreeSet::new();
    for (_, text) in reports() {
        let no_effect = |line: &&str| line.starts_with("W 0000") && &line[13..14] == "0";
        let nothing = text.lines().filter(no_effect);
        readings.extend(nothing.map(|line| line[10..12].to_string()));
    }
    assert_eq!(readings.len(), 8, "{readings:?}");
}

/// Version 1, and version 2 without and with its flag, all read to the end; and
/// flags that are reserved.
#[test]
fn maps_of_both_versions_are_reached() {
    let mut read = BTreeSet::new();
    let mut reserved = 0;
    for seed in 0..INPUTS {
        let input = generate::input(seed);
        let &[_, _, version, _, _, fifth, ..] = &input[..] else { continue };
        let text = String::from_utf8(report(&input)).expect("a report is ASCII");
        if text.contains("records") {
            read.insert((version, if version == 2 { fifth } else { 0 }));
        }
        reserved += usize::from(version == 2 && fifth > 1 && text == "refused 2\n");
    }
    assert_eq!(read, [(1, 0), (2, 0), (2, 1)].into());
    assert!(reserved >= 5, "{reserved} of {INPUTS} inputs have a reserved flag");
}

/// Settings are seen by the control readings: each alone, and several at once.
#[test]
fn settings_change_on_the_way() {
    let mut a = BTreeSet::new();
    let mut b = BTreeSet::new();
    for (_, text) in reports() {
        let written = |line: &&str| line.starts_with("W 0000") || line.starts_with("W 0001");
        for line in text.lines().filter(written) {
            let readings = if line.starts_with("W 0000") { &mut a } else { &mut b };
            readings.insert(line[10..12].to_string());
        }
    }
    let text = |readings: &[&str]| readings.iter().map(|text| text.to_string()).collect();
    assert_eq!(a, text(&["00", "18", "24", "3C", "42", "5A", "66", "7E"]));
    assert_eq!(b, text(&["00", "20", "80", "A0"]));
}
