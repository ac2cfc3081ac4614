use manual::command::Command;
use manual::run::{self, Printed};
use std::io::{self, IsTerminal, Write};
use std::process::ExitCode;

fn main() -> ExitCode {
    let Printed { output, errors, status } = match Command::parse(std::env::args_os().skip(1)) {
        Ok(command) => run::run(&command, has_colors()),
        Err(wrong) => run::misused(&wrong),
    };
    let mut stdout = io::stdout();
    let written = stdout.write_all(&output).and_then(|()| stdout.flush());
    // last, where they are seen
    let _ = io::stderr().write_all(errors.as_bytes());
    match written {
        // whoever reads has seen enough
        Err(error) if error.kind() != io::ErrorKind::BrokenPipe => {
            let _ = writeln!(io::stderr(), "manual: {error}");
            ExitCode::from(run::TROUBLE)
        }
        _ => ExitCode::from(status),
    }
}

/// Does standard output show colours, and may it?
fn has_colors() -> bool {
    let is_refused = std::env::var_os("NO_COLOR").is_some_and(|value| !value.is_empty());
    let is_dumb = std::env::var_os("TERM").is_some_and(|terminal| terminal == "dumb");
    io::stdout().is_terminal() && !is_refused && !is_dumb
}
