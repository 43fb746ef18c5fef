//! Loads in steps.

use crate::ffi::call;
use crate::loads::{self, UNTOUCHED};
use crate::outcome;
use driver::answer::{StepTold, StepsTold};
use driver::question::Steps;
use rekusoyen::entry::{STATE_NUMBERS, STEP_NUMBERS};

pub fn steps(asked: &Steps) -> StepsTold {
    let (format, flags, offset, highmem) = loads::asked(asked.loader, asked.options);
    let mut state = [UNTOUCHED; STATE_NUMBERS];
    let number = call!(rekusoyen_raw_begin(mut &mut state, format, flags, offset, highmem));
    assert_eq!(number, 0, "a state of the right size is not refused");
    let mut guest = asked.guest.clone();
    let mut calls = Vec::with_capacity(asked.calls.len());
    let mut first = None;
    for call in &asked.calls {
        let before = (state, guest.clone());
        let (map, image) = (asked.numbers(call), asked.image(call));
        let mut step = [UNTOUCHED; STEP_NUMBERS];
        let number = call!(rekusoyen_raw_step(
            mut &mut guest[..asked.lent(call)], in &map, in image, mut &mut state, call.budget, mut &mut step
        ));
        let [copied, is_answered, answer, kernel @ ..] = step;
        calls.push(match outcome(number, || ()) {
            Ok(()) if is_answered == 1 => {
                // the setup header is asked for once, when the load answers
                let loaded = || loads::load_answer(asked.loader, image, answer as u32, kernel);
                let (loaded, numbers) = first.get_or_insert_with(|| (loaded(), step[2..].to_vec()));
                assert_eq!(step[2..], *numbers, "a step after the answer repeats it");
                StepTold::Step(copied, Some(loaded.clone()))
            }
            Ok(()) => {
                assert!(step[1..].iter().all(|number| *number == 0));
                StepTold::Step(copied, None)
            }
            Err(number) => {
                assert_eq!(
                    (state, &guest),
                    (before.0, &before.1),
                    "a refused call changes something"
                );
                assert_eq!(step, [UNTOUCHED; STEP_NUMBERS]);
                StepTold::Refused(number)
            }
        });
    }
    StepsTold { calls, guest }
}
