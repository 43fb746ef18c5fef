//! The second program with one planted mistake.

use crate::answer::{Answer, UNNUMBERED};
use crate::question::Question;
use planted as program;
use second::Rules;
use std::panic::catch_unwind;

#[path = "adapter.rs"]
mod adapter;

/// What the program with the mistake answers. Where it panics, that is an answer too, which nobody else gives.
pub fn answer_by(question: &Question, rules: Rules) -> Answer {
    let answered = catch_unwind(|| adapter::answer_by(question, rules));
    answered.unwrap_or(Answer::Note(Err(UNNUMBERED)))
}
