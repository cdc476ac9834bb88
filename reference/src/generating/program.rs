//! What the programs that write scripts have in common.

use std::env;
use std::io::{self, StdoutLock, Write};
use std::process::ExitCode;

/// Reads the two arguments SEED and COUNT and has that script written to standard output.
pub fn run(
    name: &str,
    write_script: impl FnOnce(u64, u64, StdoutLock<'static>) -> io::Result<()>,
) -> ExitCode {
    let arguments: Option<Vec<u64>> = env::args_os()
        .skip(1)
        .map(|argument| argument.to_str()?.parse().ok())
        .collect();
    let Some(&[seed, count]) = arguments.as_deref() else {
        let _ = writeln!(io::stderr(), "usage: {name} SEED COUNT");
        return ExitCode::from(2);
    };
    match write_script(seed, count, io::stdout().lock()) {
        Ok(()) => ExitCode::SUCCESS,
        Err(error) => {
            let _ = writeln!(io::stderr(), "{name}: {error}");
            ExitCode::FAILURE
        }
    }
}
