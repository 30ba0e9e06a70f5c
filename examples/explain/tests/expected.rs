//! What the program prints, held against the files in `expected`: for each
//! built-in case, and for each file in `samples`.

use std::collections::BTreeSet;
use std::fs;
use std::path::{Path, PathBuf};
use std::process::{Command, Output};

const CASES: [&str; 5] = ["P1", "P2", "P4", "P7", "64k"];

/// A folder of this package.
fn folder(name: &str) -> PathBuf {
    Path::new(env!("CARGO_MANIFEST_DIR")).join(name)
}

/// Runs the program in this package's folder.
fn explain(arguments: &[&str]) -> Output {
    Command::new(env!("CARGO_BIN_EXE_explain"))
        .args(arguments)
        .current_dir(folder("."))
        .output()
        .unwrap()
}

/// What it prints where nothing is wrong.
fn printed(arguments: &[&str]) -> String {
    let output = explain(arguments);
    assert!(output.status.success(), "{arguments:?}: {output:?}");
    assert!(output.stderr.is_empty(), "{arguments:?}: {output:?}");
    String::from_utf8(output.stdout).unwrap()
}

/// What it tells where something is.
fn told(arguments: &[&str]) -> String {
    let output = explain(arguments);
    assert_eq!(output.status.code(), Some(2), "{arguments:?}");
    assert!(output.stdout.is_empty(), "{arguments:?}");
    String::from_utf8(output.stderr).unwrap()
}

fn expected(name: &str) -> String {
    let file = folder("expected").join(name).with_extension("txt");
    fs::read_to_string(&file).unwrap_or_else(|error| panic!("{}: {error}", file.display()))
}

/// The names of the text files of a folder.
fn names(of: &str) -> BTreeSet<String> {
    let files = fs::read_dir(folder(of)).unwrap();
    let stem = |path: PathBuf| path.file_stem().unwrap().to_str().unwrap().to_string();
    files.map(|file| stem(file.unwrap().path())).collect()
}

#[test]
fn the_built_in_cases() {
    for name in CASES {
        assert!(printed(&[name]) == expected(name), "{name}");
        let file = format!("cases/{name}.txt");
        assert!(printed(&[&file]) == expected(name), "{file}");
    }
    assert!(printed(&[]) == expected("P1"));
    assert!(printed(&["p2"]) == expected("P2"));
    assert!(printed(&["all"]) == CASES.map(expected).join("\n\n"));
}

#[test]
fn the_samples() {
    for name in names("samples") {
        let file = format!("samples/{name}.txt");
        assert!(printed(&[&file]) == expected(&name), "{file}");
    }
}

#[test]
fn every_expected_file_has_its_description() {
    let cases = CASES.map(str::to_string).into_iter();
    let all: BTreeSet<_> = cases.chain(names("samples")).collect();
    assert_eq!(names("expected"), all);
}

#[test]
fn each_fault_and_each_refusal_is_there() {
    let texts: String = names("expected")
        .iter()
        .map(|name| expected(name))
        .collect();
    for answer in [
        "answer     success",
        "answer     Address size fault",
        "answer     Translation fault",
        "answer     Access flag fault",
        "answer     Permission fault",
        "answer     Synchronous External abort",
        "answer     Alignment fault",
        "answer     refused with 3:",
        "answer     refused with 4:",
        "answer     refused with 5:",
        "answer     refused with 6:",
        "answer     refused with 7:",
        "answer     refused with 13:",
    ] {
        assert!(texts.contains(answer), "{answer}");
    }
}

#[test]
fn lines_fit() {
    for name in names("expected") {
        for line in expected(&name).lines() {
            assert!(line.is_ascii() && line.len() <= 100, "{name}: {line}");
            assert_eq!(line, line.trim_end(), "{name}");
        }
    }
}

#[test]
fn what_is_wrong() {
    assert_eq!(
        told(&["P1", "P2"]),
        "explain: one case or file at most; --help says more\n"
    );
    assert!(told(&["samples/none.txt"]).starts_with("explain: samples/none.txt: "));
    assert!(told(&["Cargo.toml"]).starts_with("explain: Cargo.toml: line 1: "));
}

#[test]
fn help() {
    let help = printed(&["--help"]);
    assert!(help.starts_with("usage: explain [CASE | FILE | all]\n"));
    assert_eq!(printed(&["-h"]), help);
}
