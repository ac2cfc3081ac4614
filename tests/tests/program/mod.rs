//! The program `ftlist` as it is built.

use std::io::{ErrorKind, Write};
use std::path::{Path, PathBuf};
use std::process::{Command, Stdio};

fn path() -> PathBuf {
    let path = Path::new(env!("CARGO_MANIFEST_DIR")).join("../target/bin/ftlist");
    assert!(path.is_file(), "no program {}: `bash examples/build.sh ftlist` builds it", path.display());
    path
}

/// What the program prints for an input.
pub fn printed(input: &[u8]) -> String {
    let mut child = Command::new(path())
        .stdin(Stdio::piped())
        .stdout(Stdio::piped())
        .spawn()
        .unwrap_or_else(|error| panic!("{}: {error}", path().display()));
    // it reads no more than it needs to see that an input is too long, and may have ended before the rest is written
    match child.stdin.take().unwrap().write_all(input) {
        Err(error) if error.kind() != ErrorKind::BrokenPipe => panic!("{error}"),
        _ => {}
    }
    let output = child.wait_with_output().unwrap();
    assert!(output.status.success(), "{}", output.status);
    String::from_utf8(output.stdout).unwrap()
}
