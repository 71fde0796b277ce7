//! Tables that mkmap makes maps of, and goes back to.

use std::fs;
use std::process::Command;

use super::{example, found, mkmap, mkmap_alone, mkmap_of, repository, words};

#[test]
fn mkmap_makes_the_example_map() {
    if !found("python3", "mkmap_makes_the_example_map") {
        return;
    }
    let made = mkmap(&[example("scratch.txt").to_str().unwrap()]);
    assert_eq!(words(&made), "");
    assert_eq!(made.stdout, fs::read(example("scratch.map")).unwrap());
    let printed_case = fs::read(repository().join("crates/busread/stdin")).unwrap();
    assert_eq!(made.stdout, printed_case[..53]);
}

#[test]
fn mkmap_goes_back() {
    if !found("python3", "mkmap_goes_back") {
        return;
    }
    let map = example("scratch.map");
    let table = mkmap(&["--back", map.to_str().unwrap()]);
    assert_eq!(words(&table), "");
    let again = mkmap_of("back.txt", std::str::from_utf8(&table.stdout).unwrap());
    assert_eq!(again.stdout, fs::read(map).unwrap());
}

#[test]
fn mkmap_makes_version_2_and_goes_back() {
    if !found("python3", "mkmap_makes_version_2_and_goes_back") {
        return;
    }
    let table = fs::read(example("scratch.txt")).unwrap();
    let map = fs::read(example("scratch.map")).unwrap();
    for flags in [0, 1] {
        let made = mkmap_alone(&["--flags", &flags.to_string()], &table);
        let mut expected = vec![0x00, 0x34, 2, 0, 16, flags];
        expected.extend(&map[5..]);
        assert_eq!(made.output, expected, "{}", made.words);
        let back = mkmap_alone(&["--back"], &made.output);
        let text = String::from_utf8(back.output).unwrap();
        assert!(text.starts_with(&format!("# version 2, flags 0{flags}\n")), "{text}");
        assert_eq!(mkmap_alone(&[], text.as_bytes()).output, map);
        for at in [1, 2, 4, 5] {
            let mut damaged = made.output.clone();
            damaged[at] += 2;
            assert_eq!(mkmap_alone(&["--back"], &damaged).status.code(), Some(1), "byte {at}");
        }
    }
    let reserved = mkmap_alone(&["--flags", "2"], &table);
    assert!(reserved.status.code() == Some(1) && reserved.output.is_empty());
    assert!(reserved.words.contains("the flags are 02"), "{}", reserved.words);
    assert_eq!(mkmap_alone(&["--no-test", "--flags", "2"], &table).output[5], 2);
    for words in [["--flags", "100"], ["--flags", "red"]] {
        assert_eq!(mkmap_alone(&words, &table).status.code(), Some(2), "{words:?}");
    }
}

/// A table of an older part: control at these places, and a buffered register at the top.
fn older_table(control: &[u16]) -> String {
    let lines: String = control.iter().map(|at| format!("{at:04X} control 00 00\n")).collect();
    lines + "000A read-only 00 57\n002C buffered FF 11  divider\n"
}

#[test]
fn mkmap_makes_the_maps_of_older_parts() {
    if !found("python3", "mkmap_makes_the_maps_of_older_parts") {
        return;
    }
    let (first, second) = (older_table(&[0, 4, 5]), older_table(&[0, 5]));
    for (part, table, other, rule) in [
        ("AD9557", &first, &second, "line 2: before it 0004 is missing: it must be control"),
        ("AD9508", &second, &first, "line 2: 0004 is control: only 0000 and 0005 are"),
    ] {
        let made = mkmap_alone(&["--part", part], table.as_bytes());
        assert_eq!((made.words.as_str(), made.output.len()), ("", 5 + 3 * 0x2D), "{part}");
        assert_eq!(made.output[..8], [0, 0x8A, 1, 0, 0x2D, 4, 0, 0], "{part}");
        assert_eq!(made.output[5 + 3 * 0x2C..], [3, 0xFF, 0x11], "{part}");
        let back = mkmap_alone(&["--part", part, "--back"], &made.output);
        let text = String::from_utf8(back.output).unwrap();
        assert!(text.starts_with(&format!("# {part}, top 002C\n")), "{text}");
        assert_eq!(mkmap_alone(&["--part", part], text.as_bytes()).output, made.output);
        let refused = mkmap_alone(&["--part", part], other.as_bytes());
        assert!(refused.status.code() == Some(1) && refused.output.is_empty(), "{part}");
        assert!(refused.words.contains(rule), "{part}: {}", refused.words);
        let masked = table.replace("0000 control 00", "0000 control 40");
        let refused = mkmap_alone(&["--part", part], masked.as_bytes());
        assert!(refused.words.contains("line 1: 0000 is control and has mask 40"), "{part}");
        let short = table.replace("002C", "000E");
        let refused = mkmap_alone(&["--part", part], short.as_bytes());
        assert!(
            refused.words.contains("a map has 16 to 8,192 registers, and this one 15"),
            "{part}"
        );
        assert_eq!(mkmap_alone(&[], table.as_bytes()).status.code(), Some(1), "{part}");
        let newer = fs::read(example("scratch.txt")).unwrap();
        assert_eq!(mkmap_alone(&["--part", part], &newer).status.code(), Some(1), "{part}");
    }
    let flagged = mkmap_alone(&["--part", "AD9508", "--flags", "1"], second.as_bytes());
    assert_eq!(flagged.output[..6], [0, 0x8B, 2, 0, 0x2D, 1]);
    assert_eq!(mkmap_alone(&["--part", "AD9558"], second.as_bytes()).status.code(), Some(2));
}

#[test]
fn mkmap_takes_standard_input_and_any_line_ends() {
    if !found("python3", "mkmap_takes_standard_input_and_any_line_ends") {
        return;
    }
    let table = fs::read_to_string(example("scratch.txt")).unwrap();
    let map = fs::read(example("scratch.map")).unwrap();
    let crlf = table.replace('\n', "\r\n");
    for text in [table.clone(), crlf.clone(), format!("\u{FEFF}{table}"), format!("\u{FEFF}{crlf}")]
    {
        let made = mkmap_alone(&[], text.as_bytes());
        assert_eq!(made.output, map, "{}", made.words);
    }
    let unreadable = mkmap_alone(&[], b"# one\n# two\xFF\n");
    assert!(unreadable.status.code() == Some(1) && unreadable.output.is_empty());
    assert!(unreadable.words.contains("line 2: "), "{}", unreadable.words);
}

#[test]
fn mkmap_puts_names_beside_the_registers() {
    if !found("python3", "mkmap_puts_names_beside_the_registers") {
        return;
    }
    let (table, map) = (example("scratch.txt"), example("scratch.map"));
    let (table, map) = (table.to_str().unwrap(), map.to_str().unwrap());
    let named = mkmap(&["--back", map, "--names", table]);
    let lines = fs::read_to_string(table).unwrap();
    let lines: Vec<_> = lines.lines().skip(1).collect();
    assert_eq!(String::from_utf8_lossy(&named.stdout).lines().collect::<Vec<_>>(), lines);
}

#[test]
fn mkmap_ends_with_the_status_of_what_happened() {
    if !found("python3", "mkmap_ends_with_the_status_of_what_happened") {
        return;
    }
    let table = example("scratch.txt");
    let table = table.to_str().unwrap();
    let cases: [(&[&str], i32); 12] = [
        (&["--help"], 0),
        (&["--version"], 0),
        (&["--back", table], 1),
        (&[], 2),
        (&["--bac", table], 2),
        (&["--unknown", table], 2),
        (&[table, table], 2),
        (&["--back", table, table], 2),
        (&["--names", table, table], 2),
        (&["--back", "-", "--names", "-"], 2),
        (&["no-such-table"], 3),
        (&["--back", "no-such-map"], 3),
    ];
    for (words_given, status) in cases {
        let made = mkmap(words_given);
        assert_eq!(made.status.code(), Some(status), "{words_given:?}: {}", words(&made));
        assert_eq!(made.stdout.is_empty(), status != 0, "{words_given:?}");
        assert_eq!(made.stderr.is_empty(), status == 0, "{words_given:?}");
    }
    let version = fs::read_to_string(repository().join("VERSION")).unwrap();
    assert_eq!(mkmap(&["--version"]).stdout, format!("mkmap {version}").into_bytes());
    let full = fs::File::options().write(true).open("/dev/full").unwrap();
    let tool = repository().join("tools/mkmap");
    let ended = Command::new("python3").arg(tool).arg(table).stdout(full).output().unwrap();
    assert!(ended.status.code() == Some(3) && !ended.stderr.is_empty(), "{}", ended.status);
}
