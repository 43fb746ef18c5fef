//! The proved library, linked into this process.

mod boots;
#[path = "../../../rust/src/ffi.rs"]
mod ffi;
mod lines;
mod loads;
mod pages;
mod portions;
mod starts;
mod words;

use driver::answer::Answer;
use driver::backend::{Backend, Reply};
use driver::question::{Loader, Question};
use rekusoyen::entry;

pub struct Proved;

impl Backend for Proved {
    fn name(&self) -> &str {
        "library"
    }

    fn ask(&mut self, question: &Question) -> Reply {
        let map = question.numbers();
        Reply::Answer(match question {
            Question::Elf(load) => loads::answer(Loader::Elf, load, &map),
            Question::Note(walk) => loads::note(walk),
            Question::Bzimage(load) => loads::answer(Loader::Bzimage, load, &map),
            Question::Line(calls) => lines::calls(calls),
            Question::LineLoad(load) => lines::load(load, &map),
            Question::Words(asked) => words::read(asked),
            Question::PageBuild(build) => pages::build(build),
            Question::PageRead(read) => pages::read(read),
            Question::Steps(asked) => Answer::Steps(portions::steps(asked)),
            Question::Arm64(load) => loads::answer(Loader::Arm64, load, &map),
            Question::StartWrite(write) => starts::write(write),
            Question::StartCheck(check) => starts::check(check),
            Question::Boot(boot) => return boots::boot(boot, &map),
            // asked of the desk program
            Question::Job(_) => return Reply::Outside,
        })
    }
}

/// A number that the proved code answered: 0 is accepted, and every refusal's number has one byte.
fn outcome<T>(number: u32, accepted: impl FnOnce() -> T) -> Result<T, u8> {
    match number {
        0 => Ok(accepted()),
        refusal => Err(u8::try_from(refusal).expect("a refusal's number has one byte")),
    }
}
