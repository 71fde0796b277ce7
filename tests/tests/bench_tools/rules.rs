//! The rules of a map, by mkmap itself and by the map test that it asks.

use std::fs;
use std::io::Write;
use std::process::{Command, Stdio};

use couplingnut_tests::generate::maps::simple_map;
use couplingnut_tests::generate::random::Random;
use couplingnut_tests::program::run;
use second::map::map_test;

use super::{example, folder, found, mkmap_alone, mkmap_by_itself, mkmap_of, words};

#[test]
fn mkmap_names_the_line_that_is_bad() {
    if !found("python3", "mkmap_names_the_line_that_is_bad") {
        return;
    }
    let bad = [
        ("0000 control 00", "line 2: a line is ADDRESS KIND MASK DEFAULT"),
        ("0000 red 00 00", "line 2: kind 'red' is none of"),
        ("000G plain 00 00", "line 2: address '000G' is no hexadecimal number"),
        ("2000 plain 00 00", "line 2: address '2000' is above 0x1FFF"),
        ("0000 plain 100 00", "line 2: mask '100' is above 0xFF"),
        ("0000 plain 00 1FF", "line 2: default '1FF' is above 0xFF"),
        ("0001 plain 00 00\n0001 plain 00 00", "line 3: address 0001 does not rise above 0001"),
    ];
    for (lines, expected) in bad {
        let made = mkmap_of("bad.txt", &format!("# a table\n{lines}\n"));
        assert!(!made.status.success() && made.stdout.is_empty(), "{lines}");
        assert!(words(&made).contains(expected), "{lines}: {}", words(&made));
    }
}

/// The example's table with one line put for another, or without it.
fn table_with(from: &str, to: &str) -> String {
    let table = fs::read_to_string(example("scratch.txt")).unwrap();
    assert!(table.contains(from), "the example has no `{from}`");
    table.replace(from, to)
}

#[test]
fn mkmap_names_the_line_of_a_broken_rule() {
    if !found("python3", "mkmap_names_the_line_of_a_broken_rule") {
        return;
    }
    let broken = [
        ("000A plain     FF", "000A plain 7F", "line 13: the scratch pad, 000A, has mask 7F"),
        ("00 56", "00 57", "line 15: the vendor byte at 000C is 57"),
        ("00 04", "00 05", "line 16: the vendor byte at 000D is 05"),
        ("000A plain", "000A buffered", "line 13: 000A is buffered: it must be plain"),
        ("0003 read-only 00", "0003 read-only 01", "line 6: 0003 is read-only and has mask 01"),
        ("0008 blank     00", "0008 blank 80", "line 11: 0008 is blank and has mask 80"),
        ("0009 blank     00 00", "0009 blank 00 01", "line 12: 0009 is blank and has default 01"),
        (
            "0000 control   00 00",
            "0000 control 00 18",
            "line 3: 0000 is control and has default 18",
        ),
        ("0008 blank", "0008 control", "line 11: 0008 is control: only 0000, 0001 and 000F are"),
        ("0007 blank", "0007 plain", "line 10: 0007 is plain: it must be blank"),
        ("0001 control   00 00", "#", "line 5: before it 0001 is missing: it must be control"),
        ("000F control   00 00", "#", "the end of the table: 000F is missing: it must be control"),
        ("000F control   00 00", "#", "a map has 16 to 8,192 registers, and this one 15"),
        ("00 34", "00 EE", ""),
    ];
    for (from, to, expected) in broken {
        let made = mkmap_of("broken.txt", &table_with(from, to));
        assert_eq!(made.status.code(), Some(i32::from(!expected.is_empty())), "{to}: {made:?}");
        assert_eq!(made.stdout.is_empty(), !expected.is_empty(), "{to}");
        assert!(words(&made).contains(expected), "{to}: {}", words(&made));
    }
}

#[test]
fn mkmap_tells_every_broken_rule_at_once() {
    if !found("python3", "mkmap_tells_every_broken_rule_at_once") {
        return;
    }
    let no_product = table_with("00 34", "00 FF").replace("00 12", "00 FF");
    let table = no_product.replace("00 56", "01 57");
    let made = mkmap_of("all.txt", &table);
    assert_eq!(made.status.code(), Some(1));
    let expected = "mkmap: line 15: 000C is read-only and has mask 01: it must be 00\n\
        mkmap: line 15: the vendor byte at 000C is 57: it must be 56\n\
        mkmap: lines 7 and 8: the product number is FFFF: it must be neither 0000 nor FFFF\n";
    assert_eq!(words(&made), expected);
}

/// A map whose every entry is good but for what chance made of one of them.
fn chance_entry(random: &mut Random) -> Vec<u8> {
    let mut map = simple_map(17);
    let at = 5 + 3 * random.between(0, 16);
    map[at] = random.between(0, 4) as u8;
    map[at + 1] = random.pick(&[0x00, 0x01, 0xFF]);
    map[at + 2] = random.pick(&[0x00, 0x04, 0x56, 0xFF]);
    map
}

fn table_of(map: &[u8]) -> String {
    let kinds = ["blank", "read-only", "plain", "buffered", "control"];
    let line = |(address, entry): (usize, &[u8])| {
        let kind = kinds[usize::from(entry[0])];
        format!("{address:X} {kind} {:X} 0x{:02x}\n", entry[1], entry[2])
    };
    map[5..].chunks(3).enumerate().map(line).collect()
}

/// Has mkmap's own rules judge many tables, parted by a zero byte, in one run:
/// a line for each, with the map in hex or nothing.
const JUDGE: &str = "
import importlib.machinery, importlib.util, sys
loader = importlib.machinery.SourceFileLoader('mkmap', sys.argv[1])
mkmap = importlib.util.module_from_spec(importlib.util.spec_from_loader('mkmap', loader))
loader.exec_module(mkmap)
for table in sys.stdin.buffer.read().split(b'\\0'):
    try:
        registers = mkmap.registers_of(table)
        mkmap.check_rules(registers)
        print(mkmap.map_of(registers).hex())
    except mkmap.Bad:
        print()
";

#[test]
fn mkmap_by_itself_has_the_rules_of_the_map_test() {
    if !found("python3", "mkmap_by_itself_has_the_rules_of_the_map_test") {
        return;
    }
    let mut random = Random::new(12);
    let maps: Vec<_> = (0..3_000).map(|_| chance_entry(&mut random)).collect();
    let tables: Vec<_> = maps.iter().map(|map| table_of(map)).collect();
    let mut judge = Command::new("python3");
    judge.args(["-B", "-c", JUDGE]).arg(mkmap_by_itself()).stdin(Stdio::piped());
    let judged = run(&mut judge, |mut pipe| pipe.write_all(tables.join("\0").as_bytes()));
    let judged = String::from_utf8(judged.output).unwrap();
    assert_eq!(judged.lines().count(), maps.len());
    for (map, answer) in maps.iter().zip(judged.lines()) {
        let hex: String = map.iter().map(|byte| format!("{byte:02x}")).collect();
        let expected = if map_test(map) == 0 { hex } else { String::new() };
        assert_eq!(answer, expected, "{}", table_of(map));
    }
    let good = judged.lines().filter(|line| !line.is_empty()).count();
    assert!((100..2_900).contains(&good), "good and bad ones: {good} of 3,000 are good");
}

#[test]
fn mkmap_asks_the_map_test() {
    if !found("python3", "mkmap_asks_the_map_test") {
        return;
    }
    let table = fs::read(example("scratch.txt")).unwrap();
    let asked = |answer: &str| {
        let path = folder("asked").join("busread");
        fs::write(&path, format!("#!/bin/sh\ncat >/dev/null\n{answer}\n")).unwrap();
        let words = ["+x", path.to_str().unwrap()];
        assert!(Command::new("chmod").args(words).status().unwrap().success());
        mkmap_alone(&["--busread", path.to_str().unwrap()], &table)
    };
    assert_eq!(asked("echo map 16").status.code(), Some(0));
    let refused = asked("echo refused 3");
    assert!(refused.status.code() == Some(1) && refused.output.is_empty());
    assert!(refused.words.contains("number 3"), "{}", refused.words);
    assert_eq!(asked("exit 1").status.code(), Some(3));
    let untested = mkmap_alone(&["--no-test"], table_with("00 56", "00 57").as_bytes());
    assert!(untested.status.success() && map_test(&untested.output) == 3);
}
