//! `example_image` writes the raw bytes of an example of a roll image to standard output.

use std::io::{self, Write};

use reference::example;
use reference::images::writing::image_of;

fn main() -> io::Result<()> {
    io::stdout().lock().write_all(&image_of(&example::roll()))
}
