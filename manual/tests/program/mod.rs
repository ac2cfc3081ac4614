//! The tool `manual` as it is built, and files for it.

use std::ffi::OsStr;
use std::fmt;
use std::fs;
use std::path::Path;
use std::process::{self, Command};
use std::sync::atomic::{AtomicUsize, Ordering};

/// The example manual, of 43 sections.
pub const EXAMPLE: &str = concat!(env!("CARGO_MANIFEST_DIR"), "/../examples/manual.md");

/// What a run gives. Standard output may be bytes, as those of `encode`.
#[derive(PartialEq)]
pub struct Ran {
    pub bytes: Vec<u8>,
    pub err: String,
    pub status: i32,
}

impl Ran {
    pub fn new(out: &str, err: &str, status: i32) -> Ran {
        Ran { bytes: out.into(), err: err.into(), status }
    }

    /// Standard output as text.
    pub fn out(&self) -> &str {
        std::str::from_utf8(&self.bytes).expect("text on standard output")
    }
}

/// As it would be read on a terminal.
impl fmt::Debug for Ran {
    fn fmt(&self, f: &mut fmt::Formatter) -> fmt::Result {
        let out = String::from_utf8_lossy(&self.bytes);
        write!(f, "status {}, standard error:\n{}standard output:\n{out}", self.status, self.err)
    }
}

/// The tool with these arguments, to be run where the files are.
pub fn tool(arguments: &[impl AsRef<OsStr>]) -> Command {
    let mut command = Command::new(env!("CARGO_BIN_EXE_manual"));
    command.args(arguments).current_dir(env!("CARGO_TARGET_TMPDIR")).env_remove("NO_COLOR").env("TERM", "xterm");
    command
}

/// Runs the tool.
pub fn run(arguments: &[impl AsRef<OsStr>]) -> Ran {
    let output = tool(arguments).output().expect("the tool starts");
    let status = output.status.code().expect("a status, not a signal");
    Ran { bytes: output.stdout, err: String::from_utf8(output.stderr).expect("text on standard error"), status }
}

/// Writes a file and gives its name back. Tests that run at the same time may write the same file.
pub fn file(name: &str, contents: impl AsRef<[u8]>) -> &str {
    static WRITTEN: AtomicUsize = AtomicUsize::new(0);
    let folder = Path::new(env!("CARGO_TARGET_TMPDIR"));
    let new = folder.join(format!("{}-{}.new", process::id(), WRITTEN.fetch_add(1, Ordering::Relaxed)));
    fs::write(&new, contents).expect("a new file");
    fs::rename(&new, folder.join(name)).expect("a file with its name");
    name
}
