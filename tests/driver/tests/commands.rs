//! Lines that are no command: the driver stops there and says which line it is.

use std::io::Write;
use std::process::{Command, Output, Stdio};

fn run(script: &str) -> Output {
    let mut driver = Command::new(env!("CARGO_BIN_EXE_driver"))
        .stdin(Stdio::piped())
        .stdout(Stdio::piped())
        .stderr(Stdio::piped())
        .spawn()
        .unwrap();
    driver.stdin.take().unwrap().write_all(script.as_bytes()).unwrap();
    driver.wait_with_output().unwrap()
}

/// The driver answers the line before, and not the one behind.
fn is_no_command(line: &str) {
    let done = run(&format!("send 0 1\n{line}\nsend 0 1\n"));
    assert_eq!(done.status.code(), Some(2), "{line:?}");
    assert_eq!(done.stderr, b"line 2 is no command\n", "{line:?}");
    assert_eq!(done.stdout.iter().filter(|byte| **byte == b'\n').count(), 1, "{line:?}");
}

#[test]
fn only_calls_are_previewed() {
    for line in [
        "preview",
        "preview ",
        "preview dump",
        "preview table",
        "preview load -",
        "preview audit 0 - 0 00",
        "preview bytes 0 00",
        "preview preview send 0 1",
        "preview  send 0 1",
        "preview send 0",
        "preview send 0 1 2",
        "preview show 0 1 0",
        "preview put 0 0",
        "preview add 0 0 256",
        "previews send 0 1",
        "preview check 0000000000000003",
    ] {
        is_no_command(line);
    }
}

#[test]
fn numbers_are_eight_bytes() {
    for line in [
        "most",
        "most ",
        "most 1",
        "most 1 1 1 1 1 1 1",
        "most 1 1 1 1 1 1 1 1 1",
        "most 1 1 1 1 1 1 1 256",
        "most -1 1 1 1 1 1 1 1",
        "most +1 1 1 1 1 1 1 1",
        "most 1 1 1 1 1 1 1 a",
        "most  1 1 1 1 1 1 1",
        "most 1 1 1 1 1 1 1 1 ",
        "Most 1 1 1 1 1 1 1 1",
        "preview most 1 1 1 1 1 1 1 1",
    ] {
        is_no_command(line);
    }
}

#[test]
fn a_check_is_of_one_set() {
    for line in [
        "check",
        "check ",
        "check 3",
        "check -",
        "check 000000000000000A",
        "check 00000000000000003",
        "check +000000000000003",
        "check 0000000000000003 0000000000000003",
        "check  0000000000000003",
        "checks 0000000000000003",
    ] {
        is_no_command(line);
    }
}
