//! Cases of loads in steps, each with what is to be answered.

use crate::cases::Case;
use crate::examples::{small_arm64, small_bzimage, small_elf};
use crate::question::{Load, Loader, Question, StepCall, Steps};
use second::map::whole;

pub fn all() -> Vec<Case> {
    [elf(), refused_calls(), bzimage(), arm64()].concat()
}

/// The calls of a load into guest memory in which each byte is 7 before.
fn steps(loader: Loader, load: Load, guest: usize, calls: &[StepCall]) -> Question {
    Question::Steps(Steps {
        loader,
        options: load.options,
        map: whole(guest),
        bytes: load.image,
        guest: vec![7; guest],
        calls: calls.to_vec(),
    })
}

/// A call that is lent all there is.
fn all_lent(budget: u64) -> StepCall {
    StepCall {
        budget,
        place: 0,
        length: u32::MAX,
        guest: u32::MAX,
        is_whole: false,
    }
}

/// The small image: three bytes for 16, in a guest of 20.
fn elf() -> Vec<Case> {
    let case = |budgets: &[u64], told| {
        let calls: Vec<StepCall> = budgets.iter().copied().map(all_lent).collect();
        (steps(Loader::Elf, small_elf(), 20, &calls), told)
    };
    let mut refused = small_elf();
    refused.options.highmem = Some(17);
    let mut no_bytes = small_elf();
    no_bytes.image[96] = 0;
    vec![
        case(&[], "steps, nothing changed"),
        case(&[1], "steps | 1, 16 to 16 changed"),
        case(&[2], "steps | 2, 16 to 17 changed"),
        case(
            &[1, 1, 1],
            "steps | 1 | 1 | 1 elf ok 16 24 pvh ignored, 16 to 18 changed",
        ),
        case(
            &[3, 1],
            "steps | 3 elf ok 16 24 pvh ignored | 0 elf ok 16 24 pvh ignored, 16 to 18 changed",
        ),
        // budgets beyond what is left, and sums beyond 64 bits
        case(
            &[2, 9],
            "steps | 2 | 1 elf ok 16 24 pvh ignored, 16 to 18 changed",
        ),
        case(
            &[1, u64::MAX, u64::MAX],
            "steps | 1 | 2 elf ok 16 24 pvh ignored | 0 elf ok 16 24 pvh ignored, 16 to 18 changed",
        ),
        // a refused load and one that writes nothing are answered in the first step
        (
            steps(Loader::Elf, refused, 20, &[all_lent(1), all_lent(1)]),
            "steps | 0 elf refused 5 | 0 elf refused 5, nothing changed",
        ),
        (
            steps(Loader::Elf, no_bytes, 20, &[all_lent(1)]),
            "steps | 0 elf ok 16 24 pvh ignored, nothing changed",
        ),
    ]
}

/// The same, with calls that are no steps.
fn refused_calls() -> Vec<Case> {
    let case = |calls: &[StepCall], told| (steps(Loader::Elf, small_elf(), 20, calls), told);
    let one = all_lent(1);
    let none = all_lent(0);
    let shorter = StepCall { length: 122, ..one };
    let less = StepCall {
        guest: 19,
        is_whole: true,
        ..one
    };
    let bad_map = StepCall { guest: 19, ..none };
    let whole = StepCall {
        is_whole: true,
        ..one
    };
    vec![
        case(
            &[none, one, none, one, none, one, none],
            "steps | refused 63 | 1 | refused 63 | 1 | refused 63 | 1 elf ok 16 24 pvh ignored | refused 63, 16 to 18 changed",
        ),
        case(
            &[one, shorter, less, bad_map, whole],
            "steps | 1 | refused 64 | refused 64 | refused 77 | 1, 16 to 17 changed",
        ),
        // 63 before 64, also after the answer; the first step's lengths are those of the first call that is a step
        case(
            &[bad_map, all_lent(3), StepCall { budget: 0, ..less }, less, bad_map],
            "steps | refused 77 | 3 elf ok 16 24 pvh ignored | refused 63 | refused 64 | refused 77, 16 to 18 changed",
        ),
        case(
            &[StepCall { budget: 0, ..less }, one],
            "steps | refused 63 | 1, 16 to 16 changed",
        ),
    ]
}

/// The small bzImage: a kernel of three bytes for 4, in a guest of 12.
fn bzimage() -> Vec<Case> {
    let case = |budgets: &[u64], told| {
        let calls: Vec<StepCall> = budgets.iter().copied().map(all_lent).collect();
        (steps(Loader::Bzimage, small_bzimage(), 12, &calls), told)
    };
    vec![
        case(&[2], "steps | 2, 4 to 5 changed"),
        case(
            &[2, 0, 2, 1],
            "steps | 2 | refused 63 | 1 bzimage ok 4 7 header 01..48..04000000..00 | 0 bzimage ok 4 7 header 01..48..04000000..00, 4 to 6 changed",
        ),
        (
            steps(Loader::Bzimage, small_elf(), 12, &[all_lent(1)]),
            "steps | 0 bzimage refused 21, nothing changed",
        ),
    ]
}

/// The small arm64 Image: 67 bytes for 8, in a guest of 80.
fn arm64() -> Vec<Case> {
    let case = |budgets: &[u64], told| {
        let calls: Vec<StepCall> = budgets.iter().copied().map(all_lent).collect();
        (steps(Loader::Arm64, small_arm64(), 80, &calls), told)
    };
    vec![
        case(&[2], "steps | 2, 8 to 9 changed"),
        case(
            &[64, 0, 4, 1],
            "steps | 64 | refused 63 | 3 arm64 ok 8 108 | 0 arm64 ok 8 108, 8 to 74 changed",
        ),
        (
            steps(Loader::Arm64, small_elf(), 80, &[all_lent(1)]),
            "steps | 0 arm64 refused 82, nothing changed",
        ),
    ]
}
