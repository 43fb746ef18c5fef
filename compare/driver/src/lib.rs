//! Asks the second program, the published crate and the proved code the same questions, and compares every answer and every
//! guest byte.

pub mod answer;
pub mod backend;
pub mod boot_examples;
mod cases;
pub mod cli;
pub mod compare;
mod departures;
mod desk;
pub mod domain;
mod encode;
pub mod examples;
mod generate;
mod images;
pub mod lists;
mod map_cases;
mod over_planted;
pub mod over_second;
pub mod parts;
mod planted_run;
pub mod question;
pub mod report;
pub mod rng;
pub mod run;
mod sample;
mod show;
mod shrink;
mod step_cases;
mod unclaimed;

pub use second::Rules;
