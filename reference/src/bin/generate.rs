//! `generate SEED COUNT` writes COUNT lines of a command script about splits to standard output, always the same for the same
//! SEED.

use std::process::ExitCode;

use reference::generating::{program, write_script};

fn main() -> ExitCode {
    program::run("generate", |seed, count, output| {
        write_script(seed, count, output)
    })
}
