//! The measured tables in docs/PERFORMANCE.md, between two marks.

use std::fs;

use crate::programs::repository;

const BEGIN: &str = "<!-- measured by make bench: begin -->\n";
const END: &str = "<!-- measured by make bench: end -->\n";

pub fn put_tables(tables: &str) {
    let path = repository().join("docs/PERFORMANCE.md");
    let page = fs::read_to_string(&path).expect("docs/PERFORMANCE.md is there");
    let (before, rest) = page.split_once(BEGIN).expect("the page has a place for the tables");
    let (_, after) = rest.split_once(END).expect("the place for the tables ends");
    fs::write(&path, [before, BEGIN, "\n", tables, "\n", END, after].concat())
        .expect("docs/ can be written");
    println!("written: docs/PERFORMANCE.md");
}
