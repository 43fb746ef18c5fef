//! The planted-mistake run: each mistake of the list, switched on alone, must be noticed.

use crate::backend::Maker;
use crate::over_planted;
use crate::over_second::Second;
use crate::question::Area;
use crate::run::{run, Plan, EXHAUSTIVE_PARTS, TABLE_PARTS};
use second::Rules;

/// Enough random questions for a rare path, after all the exhaustive ones.
const RANDOM: [u64; Area::COUNT] = [
    160_000, 80_000, 80_000, 80_000, 40_000, 40_000, 20_000, 20_000, 60_000, 60_000, 10_000, 40_000,
];

/// Prints for each mistake who noticed it, then the score; answers whether the unedited program noticed them all. If
/// files are named, only their mistakes are planted.
pub fn planted(seed: u64, threads: usize, published: Option<&Maker>, files: &[String]) -> bool {
    // the unedited program judges by both rules: a mistake in a departure shows by the one, and one in what it replaced by the other
    let by = |rules| -> Maker { Box::new(move || Box::new(Second { rules })) };
    let second = [Rules::landed(), Rules::PUBLISHED].map(by);
    let second: Vec<&Maker> = second.iter().collect();
    let published = published.map(|published| ("crate", vec![published]));
    let judges: Vec<(&str, Vec<&Maker>)> = [("second", second.clone())]
        .into_iter()
        .chain(published)
        .collect();
    let mut plan = Plan {
        seed,
        areas: Area::ALL.to_vec(),
        random: RANDOM.map(|count| count / 8),
        exhaustive: EXHAUSTIVE_PARTS,
        tables: TABLE_PARTS,
        threads,
        stop_at_difference: true,
        show_progress: false,
    };
    // a mistake may panic, which is noticed like any other answer and need not be told each time
    std::panic::set_hook(Box::new(|_| {}));
    // with no mistake switched on the copy is the program itself
    planted::switch_on(usize::MAX);
    let control = run(&plan, over_planted::answer_by, &second);
    println!("no mistake: {} differences", control.difference_count);
    plan.random = RANDOM;

    let mut scores = vec![0; judges.len()];
    let mistakes = planted::MISTAKES.iter().enumerate();
    let is_named = |file: &str| files.is_empty() || files.iter().any(|named| named == file);
    let mistakes: Vec<_> = mistakes.filter(|(_, (file, _))| is_named(file)).collect();
    for (index, (file, what)) in &mistakes {
        planted::switch_on(*index);
        plan.areas = areas(file);
        let mut words = Vec::new();
        for ((name, judge), score) in judges.iter().zip(&mut scores) {
            let outcome = run(&plan, over_planted::answer_by, judge);
            let noticed = outcome.difference_count > 0;
            *score += usize::from(noticed);
            let cases: u64 = outcome.cases.iter().sum();
            words.push(if noticed {
                format!("{name} within {cases} cases")
            } else {
                format!("{name} NOT in {cases} cases")
            });
        }
        println!("{file}: {what}: noticed by {}", words.join(", by "));
    }
    planted::switch_on(usize::MAX);

    let count = mistakes.len();
    let scored: Vec<String> = judges
        .iter()
        .zip(&scores)
        .map(|((name, _), score)| format!("{score} of {count} with {name} as judge"))
        .collect();
    println!("planted mistakes noticed: {}", scored.join(", "));
    control.difference_count == 0 && scores[0] == count
}

/// All areas, with that of the file first if other areas do not look at it.
fn areas(file: &str) -> Vec<Area> {
    let is_first = |area: &Area| *area == Area::Boot && matches!(file, "boot.rs" | "setup.rs");
    let (first, others): (Vec<Area>, Vec<Area>) = Area::ALL.into_iter().partition(is_first);
    [first, others].concat()
}
