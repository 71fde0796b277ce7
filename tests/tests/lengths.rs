//! What docs/CONTRIBUTING.md says of lengths holds: no file has more than 400 lines, and no
//! function of the proved code a body of 40.

use std::fs;
use std::path::{Path, PathBuf};

const MOST_LINES: usize = 400;
const MOST_IN_A_BODY: usize = 39;

/// The files below a folder. What is built (`out` in a crate), and what git keeps for itself,
/// is passed over.
fn files_below(folder: &Path) -> Vec<PathBuf> {
    let entries = fs::read_dir(folder).unwrap_or_else(|e| panic!("{}: {e}", folder.display()));
    let paths = entries.map(|entry| entry.expect("an entry").path());
    let ours =
        paths.filter(|path| !["target", "out", ".git"].iter().any(|name| path.ends_with(name)));
    ours.flat_map(|path| if path.is_dir() { files_below(&path) } else { vec![path] }).collect()
}

/// The files of text below a folder of the repository.
fn texts_below(folder: &str) -> Vec<(PathBuf, String)> {
    let root = Path::new(env!("CARGO_MANIFEST_DIR")).join("..").join(folder);
    let texts = files_below(&root).into_iter();
    texts.filter_map(|path| Some((path.clone(), fs::read_to_string(&path).ok()?))).collect()
}

/// The functions of a file of Rattle or Rust: name, and how many lines the body has. A
/// contract stands between the head of a function and its body.
fn bodies(text: &str) -> Vec<(&str, usize)> {
    let lines: Vec<&str> = text.lines().collect();
    let mut found = Vec::new();
    for (at, line) in lines.iter().enumerate() {
        let Some((before, after)) = line.split_once("fn ") else { continue };
        let indent = &line[..line.len() - line.trim_start().len()];
        let head = before.trim().split(' ').all(|word| {
            word.is_empty() || word.starts_with("pub") || ["extern", "\"C\""].contains(&word)
        });
        let name = after.split(['(', '<']).next().unwrap_or("");
        // The body opens on a line of its own after a contract, else where the head ends.
        let ends_head = |l: &str| l == *line || l.starts_with(&format!("{indent})"));
        let opens = |l: &str| l == format!("{indent}{{") || ends_head(l) && l.ends_with(" {");
        let closes = |l: &str| l == format!("{indent}}}");
        let rest = || lines[at..].iter();
        if let (true, Some(open), Some(close)) =
            (head, rest().position(|l| opens(l)), rest().position(|l| closes(l)))
        {
            found.push((name, close.saturating_sub(open + 1)));
        }
    }
    found
}

#[test]
fn no_file_has_more_than_400_lines() {
    let texts = texts_below("");
    assert!(texts.len() > 1_000, "only {} files were found", texts.len());
    for (path, text) in texts {
        let lines = text.lines().count();
        assert!(lines <= MOST_LINES, "{} has {lines} lines", path.display());
    }
}

#[test]
fn no_function_of_the_proved_code_has_40_lines() {
    let mut functions = 0;
    for (path, text) in texts_below("crates") {
        if path.extension().is_some_and(|ending| ending == "rt") {
            for (name, lines) in bodies(&text) {
                assert!(lines <= MOST_IN_A_BODY, "{name} of {} has {lines}", path.display());
                functions += 1;
            }
        }
    }
    assert!(functions > 300, "only {functions} functions were found");
}

#[test]
fn a_long_body_is_seen() {
    let contract = "pub fn long(x: u8) -> u8\n    ensures { of x }\n{\n    1\n    2\n    3\n}\n";
    let plain = "fn plain() -> bool {\n    if a() {\n    }\n}\n";
    let wide = "fn wide(\n    x: u8,\n) -> bool {\n    true\n}\n";
    let found = [contract, plain, wide].map(|text| bodies(text)[0]);
    assert_eq!(found, [("long", 3), ("plain", 2), ("wide", 1)]);
}
