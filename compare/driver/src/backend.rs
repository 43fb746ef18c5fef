//! What answers questions.

use crate::answer::Answer;
use crate::compare;
use crate::question::Question;
use second::Rules;

/// What came back for one question.
#[derive(Clone, Debug)]
pub enum Reply {
    /// An answer.
    Answer(Answer),
    /// No answer, and why.
    Failed(String),
    /// The question lies outside what this backend is compared on.
    Outside,
}

pub trait Backend {
    fn name(&self) -> &str;

    /// The rules that this backend is held to: those of the proved code, unless it says otherwise.
    fn rules(&self) -> Rules {
        Rules::landed()
    }

    fn ask(&mut self, question: &Question) -> Reply;

    /// Whether this backend's reply agrees with the answer that is wanted.
    fn agrees(&self, question: &Question, wanted: &Answer, reply: &Reply) -> bool {
        compare::agrees(question, wanted, reply)
    }
}

/// Makes a backend; each thread of a run has its own.
pub type Maker = Box<dyn Fn() -> Box<dyn Backend> + Send + Sync>;
