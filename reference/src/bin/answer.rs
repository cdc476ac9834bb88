//! Reads a command script from standard input and answers it on standard output.

use std::io::{self, Write};
use std::process::ExitCode;

fn main() -> ExitCode {
    match reference::answers::answer_script(io::stdin().lock(), io::stdout().lock()) {
        Ok(()) => ExitCode::SUCCESS,
        Err(error) => {
            // Nothing is left to be done where standard error cannot be written either.
            let _ = writeln!(io::stderr(), "answer: {error}");
            ExitCode::FAILURE
        }
    }
}
