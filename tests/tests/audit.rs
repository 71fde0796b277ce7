//! The references of docs/AUDIT.md and docs/audit/ can't rot: each file is there, and each name in it.

use std::fs;
use std::path::{Path, PathBuf};

fn repository() -> PathBuf {
    Path::new(env!("CARGO_MANIFEST_DIR")).join("..")
}

/// docs/AUDIT.md, and every page of docs/audit/.
fn pages() -> Vec<PathBuf> {
    let docs = repository().join("docs");
    let further = fs::read_dir(docs.join("audit")).expect("docs/audit");
    let further = further.map(|entry| entry.expect("docs/audit").path());
    let further = further.filter(|path| path.extension().is_some_and(|ending| ending == "md"));
    [docs.join("AUDIT.md")].into_iter().chain(further).collect()
}

/// The words between backticks that name a file of ours, with the name in it where one is given.
fn references(text: &str) -> Vec<(String, Option<String>)> {
    let quoted = text.split('`').skip(1).step_by(2);
    let files = quoted.filter(|word| {
        let file = word.split(':').next().unwrap_or("");
        [".antt", ".rt", ".rs", ".edit"].iter().any(|ending| file.ends_with(ending))
    });
    files
        .map(|word| match word.split_once(':') {
            Some((file, name)) => (file.to_string(), Some(name.to_string())),
            None => (word.to_string(), None),
        })
        .collect()
}

fn path_of(file: &str) -> PathBuf {
    let root = repository();
    if ["second/", "tests/"].iter().any(|folder| file.starts_with(folder)) {
        return root.join(file);
    }
    root.join("crates").join(file)
}

/// Whether the text has the name as a word of its own.
fn has_word(text: &str, name: &str) -> bool {
    let part = |c: char| c.is_alphanumeric() || ['_', '-', '\''].contains(&c);
    text.match_indices(name).any(|(at, _)| {
        let before = text[..at].chars().next_back();
        let after = text[at + name.len()..].chars().next();
        !before.is_some_and(part) && !after.is_some_and(part)
    })
}

#[test]
fn every_reference_exists() {
    let mut found = Vec::new();
    for page in pages() {
        let text = fs::read_to_string(&page).unwrap_or_else(|e| panic!("{}: {e}", page.display()));
        found.extend(references(&text));
    }
    assert!(found.len() > 100, "only {} references were found", found.len());
    for (file, name) in found {
        let path = path_of(&file);
        let text = fs::read_to_string(&path).unwrap_or_else(|e| panic!("{file}: {e}"));
        if let Some(name) = name {
            assert!(has_word(&text, &name), "{file} has no {name}");
        }
    }
}

#[test]
fn a_wrong_reference_is_seen() {
    let found =
        references("see `base_bits/specs/Bits.antt:merged`, `x`, and `base_bits/src/lib.rt`");
    assert_eq!(found.len(), 2);
    let text = fs::read_to_string(path_of("base_bits/specs/Bits.antt")).unwrap();
    assert!(has_word(&text, "merged"));
    assert!(!has_word(&text, "bit_a"));
}
