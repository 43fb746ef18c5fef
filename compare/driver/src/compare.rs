//! Whether two replies to one question agree.

use crate::answer::{Answer, CallAnswer, ElfLoaded, NoteWalked, Pvh};
use crate::backend::Reply;
use crate::domain;
use crate::question::Question;
use crate::unclaimed;

/// Whether a backend's reply agrees with the second program's answer.
pub fn agrees(question: &Question, wanted: &Answer, reply: &Reply) -> bool {
    let answer = match reply {
        Reply::Outside => return true,
        Reply::Failed(_) => return false,
        Reply::Answer(answer) => answer,
    };
    if let (Question::Steps(asked), Answer::Steps(wanted), Answer::Steps(told)) =
        (question, wanted, answer)
    {
        if let Some(claimed) = unclaimed::first(asked, wanted) {
            return unclaimed::agrees(asked, wanted, claimed, told);
        }
    }
    answers_agree(wanted, answer)
}

/// Whether the crate's reply agrees, but for where a failed copy was to go.
pub fn agrees_but_for_failed_copy(question: &Question, wanted: &Answer, reply: &Reply) -> bool {
    match reply {
        Reply::Answer(answer) if !domain::failed_copy(question, wanted).is_empty() => {
            answers_agree(wanted, &without_failed_copy(question, answer, wanted))
        }
        _ => agrees(question, wanted, reply),
    }
}

/// The crate's answer, with what stands where a failed copy was to go taken from the second program's.
fn without_failed_copy(question: &Question, answer: &Answer, wanted: &Answer) -> Answer {
    let unwritten = domain::failed_copy(question, wanted);
    let mut answer = answer.clone();
    match (&mut answer, wanted) {
        (Answer::Elf { guest, .. }, Answer::Elf { guest: other, .. })
        | (Answer::Bzimage { guest, .. }, Answer::Bzimage { guest: other, .. })
        | (Answer::LineLoad { guest, .. }, Answer::LineLoad { guest: other, .. }) => {
            guest[unwritten.clone()].copy_from_slice(&other[unwritten]);
        }
        _ => {}
    }
    answer
}

/// Whether two answers differ in what the published crate tells of an ELF load, which is not the note that was used.
pub fn differ_for_crate(one: &Answer, other: &Answer) -> bool {
    let mut other = other.clone();
    if let Answer::Elf { outcome, .. } = &mut other {
        if let Ok(ElfLoaded { pvh, .. }) = outcome {
            *pvh = without_note(*pvh);
        }
    }
    !answers_agree(one, &other)
}

fn without_note(pvh: Pvh) -> Pvh {
    match pvh {
        Pvh::At(address, _) => Pvh::At(address, None),
        pvh => pvh,
    }
}

/// Equal in everything that both tell.
fn answers_agree(wanted: &Answer, other: &Answer) -> bool {
    match (wanted, other) {
        (
            Answer::Elf {
                outcome: Ok(wanted),
                guest,
            },
            Answer::Elf {
                outcome: Ok(other),
                guest: other_guest,
            },
        ) => loads_agree(wanted, other) && guest == other_guest,
        (Answer::Note(Ok(wanted)), Answer::Note(Ok(other))) => walks_agree(wanted, other),
        (Answer::Line(wanted), Answer::Line(other)) => calls_agree(wanted, other),
        (
            Answer::LineLoad {
                calls,
                outcome,
                guest,
            },
            Answer::LineLoad {
                calls: other_calls,
                outcome: other_outcome,
                guest: other_guest,
            },
        ) => calls_agree(calls, other_calls) && outcome == other_outcome && guest == other_guest,
        // guest memory of a program is not seen
        (
            Answer::Job { text, .. },
            Answer::Job {
                text: other,
                guest: None,
            },
        ) => text == other,
        _ => wanted == other,
    }
}

fn loads_agree(wanted: &ElfLoaded, other: &ElfLoaded) -> bool {
    (wanted.load, wanted.end) == (other.load, other.end) && pvh_agrees(wanted.pvh, other.pvh)
}

fn pvh_agrees(wanted: Pvh, other: Pvh) -> bool {
    wanted == other || without_note(wanted) == other
}

fn walks_agree(wanted: &NoteWalked, other: &NoteWalked) -> bool {
    pvh_agrees(wanted.pvh, other.pvh)
        && (other.headers.is_none() || wanted.headers == other.headers)
}

fn calls_agree(wanted: &[CallAnswer], other: &[CallAnswer]) -> bool {
    let agree = |(wanted, other)| other == &CallAnswer::Unasked || wanted == other;
    wanted.len() == other.len() && wanted.iter().zip(other).all(agree)
}

/// The crate's answer with what it does not tell, or what lies outside its domain, taken from the second program's.
pub fn completed(question: &Question, crate_answer: &Answer, second_answer: &Answer) -> Answer {
    let mut whole = without_failed_copy(question, crate_answer, second_answer);
    match (&mut whole, second_answer) {
        (
            Answer::Elf {
                outcome: Ok(loaded),
                ..
            },
            Answer::Elf {
                outcome: Ok(other), ..
            },
        ) if pvh_agrees(other.pvh, loaded.pvh) => loaded.pvh = other.pvh,
        (Answer::Note(Ok(walked)), Answer::Note(Ok(other))) => {
            walked.headers = other.headers;
            if pvh_agrees(other.pvh, walked.pvh) {
                walked.pvh = other.pvh;
            }
        }
        (Answer::Line(calls), Answer::Line(others)) => complete_calls(calls, others),
        (Answer::LineLoad { calls, .. }, Answer::LineLoad { calls: others, .. }) => {
            complete_calls(calls, others);
        }
        _ => {}
    }
    whole
}

fn complete_calls(calls: &mut [CallAnswer], others: &[CallAnswer]) {
    for (call, other) in calls.iter_mut().zip(others) {
        if *call == CallAnswer::Unasked {
            call.clone_from(other);
        }
    }
}

#[cfg(test)]
mod tests {
    use super::*;
    use crate::answer::Note;
    use crate::examples;
    use crate::over_second;

    #[test]
    fn one_changed_guest_byte_is_a_difference() {
        let question = Question::Elf(examples::small_elf());
        let wanted = over_second::answer(&question);
        assert!(agrees(&question, &wanted, &Reply::Answer(wanted.clone())));
        let mut changed = wanted.clone();
        if let Answer::Elf { guest, .. } = &mut changed {
            guest[3] ^= 1;
        }
        assert!(!agrees(&question, &wanted, &Reply::Answer(changed)));
    }

    #[test]
    fn a_part_written_segment_is_forgiven_the_crate_but_no_other_byte() {
        let mut load = examples::small_elf();
        load.guest.truncate(18);
        let question = Question::Elf(load);
        let wanted = over_second::answer(&question);
        for (place, forgiven) in [(16, true), (17, true), (15, false)] {
            let mut changed = wanted.clone();
            if let Answer::Elf { guest, .. } = &mut changed {
                guest[place] ^= 1;
            }
            let reply = Reply::Answer(changed);
            assert!(!agrees(&question, &wanted, &reply));
            let agrees = agrees_but_for_failed_copy(&question, &wanted, &reply);
            assert_eq!(agrees, forgiven, "byte {place}");
        }
    }

    #[test]
    fn the_note_that_was_used_is_compared_where_it_is_told() {
        let at = |place| Pvh::At(7, Some(Note { place, size: 4 }));
        let loaded = |pvh| {
            let (load, end) = (1, 2);
            let outcome = Ok(ElfLoaded { load, end, pvh });
            let guest = vec![3];
            Answer::Elf { outcome, guest }
        };
        let untold = loaded(Pvh::At(7, None));
        assert!(answers_agree(&loaded(at(5)), &loaded(at(5))));
        assert!(!answers_agree(&loaded(at(5)), &loaded(at(6))));
        assert!(answers_agree(&loaded(at(5)), &untold));
        assert!(!answers_agree(&loaded(at(5)), &loaded(Pvh::At(8, None))));
        assert!(!differ_for_crate(&loaded(at(5)), &loaded(at(6))));
        assert!(differ_for_crate(&loaded(at(5)), &loaded(Pvh::None)));
        let question = &Question::Line(vec![]);
        let whole = completed(question, &untold, &loaded(at(5)));
        assert_eq!(whole, loaded(at(5)));
    }

    #[test]
    fn what_is_not_told_is_not_compared_and_can_be_completed() {
        let walked = |headers| {
            let pvh = Pvh::None;
            Answer::Note(Ok(NoteWalked { pvh, headers }))
        };
        assert!(answers_agree(&walked(Some(2)), &walked(None)));
        assert!(!answers_agree(&walked(Some(2)), &walked(Some(3))));
        let question = &Question::Line(vec![]);
        let whole = completed(question, &walked(None), &walked(Some(2)));
        assert_eq!(whole, walked(Some(2)));
        let told = Answer::Line(vec![CallAnswer::Refused(61), CallAnswer::Ok]);
        let untold = Answer::Line(vec![CallAnswer::Unasked, CallAnswer::Ok]);
        assert!(answers_agree(&told, &untold));
        assert_eq!(completed(question, &untold, &told), told);
    }
}
