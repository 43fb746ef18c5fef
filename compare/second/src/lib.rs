//! The loader's rules, read a second time.
//!
//! This program shares no code with the proved crates nor with the published crate, and was written from the rules alone, so that
//! a slip in one of the three shows as a difference. It favours plainness over speed: sums are taken in 128 bits, where nothing
//! can wrap, and everything works on slices.

pub mod arm64;
pub mod boot;
pub mod bzimage;
pub mod desk;
pub mod device;
pub mod elf;
pub mod fields;
pub mod line;
pub mod loading;
pub mod map;
pub mod note;
pub mod page;
pub mod refusal;
pub mod rules;
pub mod separator;
pub mod setup;
pub mod start;
pub mod steps;
pub mod text;
pub mod words;

pub use refusal::Refusal;
pub use rules::{Departure, Rules};

#[cfg(test)]
mod boot_tests;
