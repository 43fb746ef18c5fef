//! The second program as a backend.

use crate::answer::Answer;
use crate::backend::{Backend, Reply};
use crate::question::Question;
use second as program;
use second::Rules;

#[path = "adapter.rs"]
mod adapter;

pub use adapter::{answer_by, line_of};

/// The answer by the rules that the proved code is held to.
pub fn answer(question: &Question) -> Answer {
    answer_by(question, Rules::landed())
}

/// The second program by a set of rules.
pub struct Second {
    pub rules: Rules,
}

impl Backend for Second {
    fn name(&self) -> &str {
        "second"
    }

    fn rules(&self) -> Rules {
        self.rules
    }

    fn ask(&mut self, question: &Question) -> Reply {
        Reply::Answer(answer_by(question, self.rules))
    }
}
