//! Books, which are opened from roll images.

use crate::images::{Fault, Roll, read_image};

/// What says how much each participant weighs.
#[derive(Clone, Copy, Debug, Default, PartialEq, Eq)]
pub enum Basis {
    #[default]
    Commitment,
}

/// A book that was opened.
#[derive(Clone, Debug, PartialEq, Eq)]
pub struct Book {
    pub roll: Roll,
    pub basis: Basis,
}

impl Book {
    /// Opens a book afresh from an image.
    pub fn open(image: &[u8], basis: Basis) -> Result<Self, Fault> {
        read_image(image).map(|roll| Self { roll, basis })
    }
}
