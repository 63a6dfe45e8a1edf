//! Runs the examples, which cargo builds before it runs the tests, and compares what they print.

use std::env;
use std::fs;
use std::path::{Path, PathBuf};
use std::process::Command;

/// What a program leaves: whether it succeeded, its standard output and its standard error.
#[derive(Debug, PartialEq)]
struct Outcome {
    success: bool,
    output: String,
    errors: String,
}

fn outcome(success: bool, output: &str, errors: &str) -> Outcome {
    Outcome { success, output: String::from(output), errors: String::from(errors) }
}

/// The examples stand in a folder beside that of the tests.
fn run(example: &str, arguments: &[&Path]) -> Outcome {
    let test = env::current_exe().expect("the path of this test");
    let program = test.ancestors().nth(2).expect("the folder of the profile").join("examples").join(example);
    let ran = Command::new(&program).args(arguments).output();
    let ran = ran.unwrap_or_else(|error| panic!("{}: {error}; `cargo build --examples` makes it", program.display()));
    Outcome {
        success: ran.status.success(),
        output: String::from_utf8(ran.stdout).expect("text"),
        errors: String::from_utf8(ran.stderr).expect("text"),
    }
}

fn sample(name: &str) -> PathBuf {
    Path::new(env!("CARGO_MANIFEST_DIR")).join("../../samples").join(name)
}

/// A file with the bytes, for this run of the tests.
fn file(name: &str, bytes: &[u8]) -> PathBuf {
    let path = Path::new(env!("CARGO_TARGET_TMPDIR")).join(name);
    fs::write(&path, bytes).expect("a file is written");
    path
}

#[test]
fn round_b() {
    assert_eq!(run("round_b", &[]), outcome(true, include_str!("../examples/round_b.stdout"), ""));
}

#[test]
fn read_file_of_round_b() {
    let wanted = outcome(true, include_str!("../examples/read_file.stdout"), "");
    assert_eq!(run("read_file", &[&sample("round-b.round")]), wanted);
}

#[test]
fn read_file_of_the_documents_example() {
    let text = "boxes 1 plugs 2\nouter polygon (0, 0) (0, 4) (4, 4) (4, 0)\n1 (2, 2) undecided\n2 (5, 2) outside\n";
    assert_eq!(run("read_file", &[&sample("example.round")]), outcome(true, text, ""));
}

/// The bytes of the document's example: a box, plugs at 18 and 28, the end at 38.
fn example() -> Vec<u8> {
    fs::read(sample("example.round")).expect("the sample")
}

#[test]
fn read_file_of_a_far_plug() {
    let mut bytes = example();
    bytes[20..24].copy_from_slice(&16_001_i32.to_be_bytes());
    let text = "boxes 1 plugs 2\nouter polygon (0, 0) (0, 4) (4, 4) (4, 0)\n\
                1 (16001, 2) refused: plug beyond ±16,000\n2 (5, 2) outside\n";
    assert_eq!(run("read_file", &[&file("far-plug.round", &bytes)]), outcome(true, text, ""));
}

#[test]
fn read_file_of_what_is_refused() {
    let mut reversed = example();
    reversed[2..6].copy_from_slice(&5_i32.to_be_bytes());
    let cases = [
        ("cut-short.round", &example()[..30], "refused 9 28: file stops within a record, or with no end record"),
        ("no-box.round", &[0x5B, 0x00], "refused 2 0: no box"),
        ("reversed.round", &reversed, "refused 5 1: west over east, or south over north"),
    ];
    for (name, bytes, words) in cases {
        let path = file(name, bytes);
        let errors = format!("{}: {words}\n", path.display());
        assert_eq!(run("read_file", &[&path]), outcome(false, "", &errors));
    }
}

#[test]
fn read_file_of_no_file() {
    assert_eq!(run("read_file", &[]), outcome(false, "", "usage: read_file ROUND_FILE\n"));
    let missing = run("read_file", &[&sample("no-such.round")]);
    assert!(!missing.success && missing.output.is_empty() && missing.errors.contains("no-such.round: "), "{missing:?}");
}
