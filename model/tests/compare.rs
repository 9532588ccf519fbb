//! The binary `compare`, with small programs in place of the servers.
#![cfg(unix)]

use std::os::unix::fs::PermissionsExt;
use std::path::PathBuf;
use std::process::{Command, Output};

const SERVE: &str = env!("CARGO_BIN_EXE_serve");

/// Writes a shell program and gives its path.
fn program(name: &str, body: &str) -> PathBuf {
    let path = PathBuf::from(env!("CARGO_TARGET_TMPDIR")).join(name);
    std::fs::write(&path, format!("#!/bin/sh\n{body}\n")).expect("is written");
    std::fs::set_permissions(&path, PermissionsExt::from_mode(0o755)).expect("may be run");
    path
}

fn compare(so1: &PathBuf, so2: &PathBuf, files: &str) -> Output {
    Command::new(env!("CARGO_BIN_EXE_compare"))
        .args([so1, so2])
        .args(["--seed", "8", "--files", files])
        .env("TMPDIR", env!("CARGO_TARGET_TMPDIR"))
        .output()
        .expect("compare starts")
}

fn text(output: &Output) -> String {
    String::from_utf8_lossy(&output.stdout).into_owned()
}

#[test]
fn right_programs_pass() {
    let so1 = program("right-so1", &format!("exec {SERVE} so1"));
    let so2 = program("right-so2", &format!("exec {SERVE} so2"));
    let output = compare(&so1, &so2, "110");
    assert_eq!(output.status.code(), Some(0), "{}", text(&output));
    assert!(text(&output).contains("so2 Lengths: 2 files"));
}

#[test]
fn programs_in_the_wrong_order_fail() {
    let so1 = program("swapped-so1", &format!("exec {SERVE} so1"));
    let so2 = program("swapped-so2", &format!("exec {SERVE} so2"));
    let output = compare(&so2, &so1, "110");
    assert_eq!(output.status.code(), Some(1));
    assert!(text(&output).contains("FAULT in "), "{}", text(&output));
}

#[test]
fn one_byte_more_fails_and_the_input_is_kept() {
    let so1 = program("more-so1", &format!("{SERVE} so1; printf x"));
    let so2 = program("more-so2", &format!("exec {SERVE} so2"));
    let output = compare(&so1, &so2, "3");
    assert_eq!(output.status.code(), Some(1));
    let text = text(&output);
    assert!(text.contains("FAULT in Empty 0, seed 8: so1: at output offset 0"));
    let path = text.split("the input is in ").nth(1).expect("a path");
    assert_eq!(std::fs::read(path.trim()).expect("the input"), []);
}

#[test]
fn another_exit_status_fails() {
    let so1 = program("status-so1", &format!("exec {SERVE} so1"));
    let so2 = program("status-so2", &format!("{SERVE} so2; exit 3"));
    let output = compare(&so1, &so2, "1");
    assert_eq!(output.status.code(), Some(1));
    assert!(text(&output).contains("so2: ended with exit status: 3"));
}

#[test]
fn self_mode_passes() {
    let output = Command::new(env!("CARGO_BIN_EXE_compare"))
        .args(["--self", "--files", "110"])
        .output()
        .expect("compare starts");
    assert_eq!(output.status.code(), Some(0));
    assert!(text(&output).contains("no fault"));
}

#[test]
fn wrong_words_are_refused() {
    let wrong: [&[&str]; 4] = [&[], &["a"], &["--self", "--files"], &["--self", "a", "b"]];
    for words in wrong {
        let output = Command::new(env!("CARGO_BIN_EXE_compare"))
            .args(words)
            .output()
            .expect("compare starts");
        assert_eq!(output.status.code(), Some(2), "{words:?}");
    }
}
