//! Loads in steps whose image changes between the steps. From there on the match with the whole load is not claimed: a step keeps to its
//! budget and to the ranges of the map, and what is refused is refused as ever.

use crate::answer::{StepTold, StepsTold};
use crate::question::Steps;

/// The first step with another image than the first step's, if the load was not answered before it.
pub fn first(asked: &Steps, wanted: &StepsTold) -> Option<usize> {
    let mut image = None;
    for (index, (call, told)) in asked.calls.iter().zip(&wanted.calls).enumerate() {
        let StepTold::Step(_, answer) = told else {
            continue;
        };
        if *image.get_or_insert(asked.image(call)) != asked.image(call) {
            return Some(index);
        }
        if answer.is_some() {
            return None;
        }
    }
    None
}

/// Whether an answer agrees up to a call, and keeps to what is promised from that call on.
pub fn agrees(asked: &Steps, wanted: &StepsTold, claimed: usize, told: &StepsTold) -> bool {
    let (calls, guest) = (&told.calls, &told.guest);
    if calls.len() != wanted.calls.len() || calls[..claimed] != wanted.calls[..claimed] {
        return false;
    }
    let mut most = 0u64;
    for ((call, told), wanted) in asked.calls.iter().zip(calls).zip(&wanted.calls) {
        match (told, wanted) {
            (StepTold::Step(copied, _), StepTold::Step(..)) if *copied <= call.budget => {
                most = most.saturating_add(*copied);
            }
            (StepTold::Refused(number), StepTold::Refused(wanted)) if number == wanted => {}
            _ => return false,
        }
    }
    let bytes = guest.iter().zip(&asked.guest);
    let changed = bytes.filter(|(now, before)| now != before).count();
    changed as u64 <= most && keeps_to_ranges(asked, claimed, guest)
}

/// Whether every changed byte lies in a range of the map of the steps.
fn keeps_to_ranges(asked: &Steps, claimed: usize, guest: &[u8]) -> bool {
    let numbers = asked.numbers(&asked.calls[claimed]);
    let has = |place: usize| {
        let mut ranges = numbers.chunks_exact(2);
        ranges.any(|range| (range[0]..range[0] + range[1]).contains(&(place as u64)))
    };
    let changed = (0..guest.len()).filter(|place| guest[*place] != asked.guest[*place]);
    guest.len() == asked.guest.len() && changed.into_iter().all(has)
}

#[cfg(test)]
mod tests {
    use super::*;
    use crate::answer::Answer;
    use crate::examples;
    use crate::over_second;
    use crate::question::{Loader, Question, StepCall};

    /// The small image in two steps, a byte of which changes between them; its segment is three bytes for 16.
    fn asked(change: bool) -> (Steps, StepsTold) {
        let mut bytes = examples::small_elf().image;
        let length = bytes.len();
        bytes.extend_from_within(..);
        bytes[length + 121] ^= u8::from(change);
        let call = |budget, place: usize| StepCall {
            budget,
            place: place as u32,
            length: length as u32,
            guest: 32,
            is_whole: false,
        };
        let steps = Steps {
            loader: Loader::Elf,
            options: Default::default(),
            map: vec![0, 20],
            bytes,
            guest: vec![7; 32],
            calls: vec![call(1, 0), call(0, 0), call(1, length), call(9, 0)],
        };
        match over_second::answer(&Question::Steps(steps.clone())) {
            Answer::Steps(told) => (steps, told),
            _ => unreachable!("steps are told"),
        }
    }

    #[test]
    fn the_match_is_claimed_until_the_image_changes() {
        let (steps, told) = asked(false);
        assert_eq!(first(&steps, &told), None);
        let (steps, told) = asked(true);
        assert_eq!(first(&steps, &told), Some(2));
        let mut answered = steps.clone();
        answered.calls[0].budget = 3;
        let Answer::Steps(told) = over_second::answer(&Question::Steps(answered.clone())) else {
            unreachable!("steps are told")
        };
        assert_eq!(first(&answered, &told), None);
    }

    #[test]
    fn budgets_refusals_and_ranges_are_kept_to_for_all_that() {
        let (steps, wanted) = asked(true);
        let agrees = |change: &dyn Fn(&mut StepsTold)| {
            let mut told = wanted.clone();
            change(&mut told);
            agrees(&steps, &wanted, 2, &told)
        };
        assert!(agrees(&|_| {}));
        let copied = |index: usize, copied| {
            agrees(&move |told: &mut StepsTold| told.calls[index] = StepTold::Step(copied, None))
        };
        // another count is good within the budget, and before the change it is not
        assert!(copied(3, 9));
        assert!(!copied(3, 10));
        assert!(!copied(0, 0));
        assert!(!copied(1, 0));
        let refused = |index: usize, number| {
            agrees(&move |told: &mut StepsTold| told.calls[index] = StepTold::Refused(number))
        };
        assert!(!refused(1, 64));
        assert!(!refused(3, 64));
        // a byte that changed in a range, and one in none
        assert!(agrees(&|told| told.guest[18] = 1));
        assert!(agrees(&|told| told.guest[18..20].fill(7)));
        assert!(!agrees(&|told| told.guest[20] = 1));
        assert!(!agrees(&|told| told.guest.fill(1)));
    }
}
