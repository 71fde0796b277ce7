//! Maps that mkmap mends.

use std::fs;
use std::process::Output;

use super::{example, folder, found, mkmap, mkmap_alone, repository, words};

/// The example's map with four slips in it.
fn map_with_slips() -> Vec<u8> {
    let mut map = fs::read(example("scratch.map")).unwrap();
    let slips =
        [(0x0001, [2, 0xFF, 0]), (0x0002, [4, 0, 0]), (0x0003, [9, 1, 5]), (0x000C, [1, 0, 0x65])];
    for (address, entry) in slips {
        map[5 + 3 * address..8 + 3 * address].copy_from_slice(&entry);
    }
    map
}

/// mkmap --mend on this map, with these further words; the library has to be built. Each
/// test has its own file, since tests run at the same time.
fn mend(file: &str, map: &[u8], further: &[&str]) -> Output {
    let library = repository().join("target/lib/libcouplingnut.so.0");
    assert!(library.exists(), "{} is missing; build it first: make library", library.display());
    let file = folder("mend").join(file);
    fs::write(&file, map).expect("the map is written");
    mkmap(&[&["--mend", file.to_str().unwrap()], further].concat())
}

#[test]
fn mkmap_mends_a_map_and_tells_what_it_changed() {
    if !found("python3", "mkmap_mends_a_map_and_tells_what_it_changed") {
        return;
    }
    let good = fs::read(example("scratch.map")).unwrap();
    let table = example("scratch.txt");
    let typed = map_with_slips();
    let named = mend("typed.map", &typed, &["--names", table.to_str().unwrap()]);
    let lines = "mkmap: 0001 was plain FF 00, now control 00 00  interface configuration B\n\
        mkmap: 0002 was control 00 00, now blank 00 00  device configuration, not used here\n\
        mkmap: 0003 was 9 01 05, now read-only 00 05  chip type\n\
        mkmap: 000C was read-only 00 65, now read-only 00 56  vendor, low\n";
    assert_eq!((words(&named).as_str(), &named.stdout), (lines, &good));
    let unnamed = mend("typed.map", &typed, &[]);
    assert!(unnamed.status.success() && unnamed.stdout == good);
    assert!(words(&unnamed).contains("now read-only 00 05\n"), "{}", words(&unnamed));
    let again = mend("typed.map", &good, &[]);
    assert_eq!(words(&again), "mkmap: no register had to be altered\n");
    assert!(again.status.success() && again.stdout == good);
}

#[test]
fn mkmap_mends_no_map_of_wrong_form() {
    if !found("python3", "mkmap_mends_no_map_of_wrong_form") {
        return;
    }
    let mut nameless = map_with_slips();
    nameless[5 + 3 * 0x0004..5 + 3 * 0x0006].fill(0xFF);
    for (number, map) in [(18, &nameless[..]), (2, &nameless[..nameless.len() - 1])] {
        let refused = mend("wrong.map", map, &[]);
        assert!(refused.status.code() == Some(1) && refused.stdout.is_empty(), "{number}");
        let begins = words(&refused).starts_with(&format!("mkmap: refused {number}: "));
        assert!(begins, "{}", words(&refused));
    }
    let lone = mkmap_alone(&["--mend"], &map_with_slips());
    assert!(lone.status.code() == Some(3) && lone.output.is_empty());
    assert!(lone.words.starts_with("mkmap: --mend needs libcouplingnut"), "{}", lone.words);
    let map = example("scratch.map");
    let map = map.to_str().unwrap();
    let wrong: [(&[&str], i32); 5] = [
        (&["--mend", map, map], 2),
        (&["--mend", map, "--back", map], 2),
        (&["--mend", map, "--flags", "1"], 2),
        (&["--mend", "-", "--names", "-"], 2),
        (&["--mend", "no-such-map"], 3),
    ];
    for (words_given, status) in wrong {
        let made = mkmap(words_given);
        assert_eq!(made.status.code(), Some(status), "{words_given:?}: {}", words(&made));
        assert!(made.stdout.is_empty() && !made.stderr.is_empty(), "{words_given:?}");
    }
}
