//! The command as a user runs it: what it prints, and its exit status.

use std::fs;
use std::io::Write;
use std::path::Path;
use std::process::{Command, Stdio};

#[derive(Debug, PartialEq, Eq)]
struct Said {
    status: i32,
    out: String,
    err: String,
}

fn rulebook(arguments: &[&str], input: &str) -> Said {
    let mut child = Command::new(env!("CARGO_BIN_EXE_rulebook"))
        .args(arguments)
        .stdin(Stdio::piped())
        .stdout(Stdio::piped())
        .stderr(Stdio::piped())
        .spawn()
        .unwrap();
    // A command that refuses its arguments reads no input.
    let _ = child.stdin.take().unwrap().write_all(input.as_bytes());
    let output = child.wait_with_output().unwrap();
    Said {
        status: output.status.code().unwrap(),
        out: String::from_utf8(output.stdout).unwrap(),
        err: String::from_utf8(output.stderr).unwrap(),
    }
}

fn said(status: i32, out: &str, err: &str) -> Said {
    Said {
        status,
        out: out.to_string(),
        err: err.to_string(),
    }
}

#[test]
fn prints_a_model() {
    assert_eq!(
        rulebook(&["solve", "-"], "p cnf 3 3\n1 0\n-2 0\n-1 2 3 0\n"),
        said(10, "s SATISFIABLE\nv 1 -2 3 0\n", "")
    );
    assert_eq!(
        rulebook(&["solve", "-"], "p cnf 0 0\n"),
        said(10, "s SATISFIABLE\nv 0\n", "")
    );
}

#[test]
fn says_that_there_is_no_model() {
    for text in ["p cnf 1 2\n1 0\n-1 0\n", "p cnf 0 1\n0\n"] {
        assert_eq!(
            rulebook(&["solve", "-"], text),
            said(20, "s UNSATISFIABLE\n", "")
        );
    }
}

#[test]
fn reads_a_file() {
    let file = Path::new(env!("CARGO_TARGET_TMPDIR")).join("never.cnf");
    let name = file.to_str().unwrap();
    fs::write(&file, "p cnf 1 2\n1 0\n-1 0\n%\n0\n").unwrap();
    assert_eq!(
        rulebook(&["solve", name], ""),
        said(20, "s UNSATISFIABLE\n", "")
    );
    fs::write(&file, "c\np cnf 1 2\n1 0\n-2 0\n").unwrap();
    let message = "a variable above 1, the last by the header";
    assert_eq!(
        rulebook(&["solve", name], ""),
        said(2, "", &format!("rulebook: {name}:4: {message}\n"))
    );
}

#[test]
fn names_the_line_of_a_fault() {
    assert_eq!(
        rulebook(&["solve", "-"], "p cnf 1 1\n\nx 0\n"),
        said(2, "", "rulebook: <stdin>:3: a literal or 0 is expected\n")
    );
}

#[test]
fn refuses_what_cannot_be_read() {
    let said = rulebook(&["solve", "no/such/file.cnf"], "");
    assert_eq!((said.status, said.out.as_str()), (2, ""));
    assert!(said.err.starts_with("rulebook: no/such/file.cnf: "));
}

#[test]
fn refuses_bad_use() {
    for arguments in [&[][..], &["solve"], &["prove", "-"], &["solve", "-", "-"]] {
        assert_eq!(
            rulebook(arguments, ""),
            said(2, "", "use: rulebook solve [--counts] FILE.cnf\n")
        );
    }
}

#[test]
fn says_that_memory_is_short() {
    // So many variables take more than 64 GiB, which some machine may have: the limit makes sure.
    let input = "p cnf 2147483647 0\n";
    let command = format!(
        "ulimit -v 1000000; exec {} solve -",
        env!("CARGO_BIN_EXE_rulebook")
    );
    let mut child = Command::new("sh")
        .args(["-c", &command])
        .stdin(Stdio::piped())
        .stdout(Stdio::piped())
        .stderr(Stdio::piped())
        .spawn()
        .unwrap();
    child
        .stdin
        .take()
        .unwrap()
        .write_all(input.as_bytes())
        .unwrap();
    let output = child.wait_with_output().unwrap();
    assert_eq!(output.status.code(), Some(2));
    assert_eq!(output.stderr, b"rulebook: <stdin>: not enough memory\n");
}
