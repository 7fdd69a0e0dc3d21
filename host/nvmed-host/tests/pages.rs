//! The manual page, the README and the program's help name each kind of line of the configuration, and no other.
#![allow(clippy::unwrap_used, clippy::expect_used, clippy::panic)]

use std::collections::BTreeSet;
use std::path::Path;
use std::process::Command;

use nvmed_host::config::kinds;

/// A page of the repository.
fn page(path: &str) -> String {
    std::fs::read_to_string(Path::new(env!("CARGO_MANIFEST_DIR")).join("../..").join(path)).unwrap()
}

/// The kinds of lines that the program reads.
fn known() -> BTreeSet<String> {
    kinds().map(String::from).collect()
}

/// The first words of what is left of those lines of a text that begin with `mark`.
fn first_words(text: &str, mark: &str) -> BTreeSet<String> {
    text.lines()
        .filter_map(|line| line.strip_prefix(mark)?.split([' ', '"', '`']).next())
        .map(String::from)
        .collect()
}

#[test]
fn the_manual_page_has_each_kind_of_line() {
    assert_eq!(first_words(&page("package/man/nvmed-host.conf.5"), ".BI \""), known());
}

#[test]
fn the_readme_has_each_kind_of_line() {
    let readme = page("host/README.md");
    let (_, section) = readme.split_once("\n## The configuration\n").unwrap();
    let (_, table) = section.split_once("\n---|---\n").unwrap();
    let (table, _) = table.split_once("\n\n").unwrap();
    assert_eq!(first_words(table, "`"), known());
}

#[test]
fn the_help_has_each_kind_of_line() {
    let output = Command::new(env!("CARGO_BIN_EXE_nvmed-host"))
        .arg("--help")
        .output()
        .unwrap();
    let text = String::from_utf8(output.stdout).unwrap();
    let (_, lines) = text.split_once("'#' begins a comment").unwrap();
    let (lines, _) = lines.split_once("\n\n'nvmed-host ctl").unwrap();
    assert_eq!(first_words(lines, "  "), known());
}

#[test]
fn the_example_of_the_package_is_good() {
    let example = Path::new(env!("CARGO_MANIFEST_DIR")).join("../../package/files/small.conf");
    let output = Command::new(env!("CARGO_BIN_EXE_nvmed-host"))
        .arg("check")
        .arg(example)
        .output()
        .unwrap();
    assert!(output.status.success(), "{}", String::from_utf8_lossy(&output.stderr));
}
