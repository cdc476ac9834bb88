//! A second program for the command script, written from the written rules alone so that its answers can be compared with
//! those of another program. It aims at being plainly right, not at being fast: every division is done in 128 bits and the
//! odd dollars are handed out down a sorted list.
//!
//! * [`lines`], [`numbers`] and [`commands`] read a line of bytes into a command,
//! * [`splitting`] splits a sum among bearers,
//! * [`images`] reads and writes roll images and finds their faults, and [`books`] are opened from them,
//! * [`example`] is an example of a roll,
//! * [`answers`] answers a whole script,
//! * [`random`] and [`generating`] write scripts to compare the programs on.

#![forbid(unsafe_code)]

pub mod answers;
pub mod books;
pub mod commands;
pub mod example;
pub mod generating;
pub mod images;
pub mod lines;
pub mod numbers;
pub mod random;
pub mod splitting;
