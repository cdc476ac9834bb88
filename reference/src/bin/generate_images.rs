//! `generate_images SEED COUNT` writes COUNT lines of a command script about roll images to standard output, always the same
//! for the same SEED.

use std::process::ExitCode;

use reference::generating::{openings, program};

fn main() -> ExitCode {
    program::run("generate_images", |seed, count, output| {
        openings::write_script(seed, count, output)
    })
}
