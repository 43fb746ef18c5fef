//! What a run says at its end.

use crate::backend::{Backend, Maker, Reply};
use crate::departures;
use crate::over_second;
use crate::question::{Area, Question};
use crate::run::{Difference, Outcome};
use crate::show::show;
use crate::shrink::shrink;

/// How many differences of each area are made small and printed.
const SHOWN: usize = 3;

/// Every number of the rules that questions of ordinary sizes can reach; 60 needs a slice of more than 2^40 bytes.
const REACHABLE: [u8; 72] = [
    1, 2, 3, 4, 5, 6, 7, 8, 9, 10, 11, 12, 13, 14, 21, 22, 23, 24, 31, 32, 41, 42, 43, 44, 45, 46,
    47, 48, 49, 50, 51, 61, 62, 63, 64, 70, 71, 72, 73, 74, 75, 76, 77, 78, 79, 80, 81, 82, 83, 84,
    85, 86, 87, 88, 91, 92, 93, 94, 95, 96, 97, 98, 99, 100, 101, 102, 103, 104, 105, 106, 107,
    108,
];

/// Prints the differences, each made small, and the last line; answers whether there was none.
pub fn report(outcome: &Outcome, backends: &[&Maker]) -> bool {
    let mut asked: Vec<_> = backends.iter().map(|make| make()).collect();
    for area in Area::ALL {
        let mut texts = Vec::new();
        let of_area = |difference: &&Difference| difference.question.area() == area;
        for difference in outcome.differences.iter().filter(of_area).take(SHOWN) {
            let backend = asked[difference.backend].as_mut();
            texts.push(difference_text(difference.question.clone(), backend));
        }
        // differences of one kind often shrink to the same question
        texts.dedup();
        texts.iter().for_each(|text| println!("{text}"));
    }
    println!("{}", frequencies(outcome));
    println!("{}", last_line(outcome, &asked));
    outcome.difference_count == 0
}

/// The smallest question that still differs, and both answers.
fn difference_text(question: Question, backend: &mut dyn Backend) -> String {
    let rules = backend.rules();
    let smallest = shrink(question, |question| {
        let wanted = over_second::answer_by(question, rules);
        let reply = backend.ask(question);
        !backend.agrees(question, &wanted, &reply)
    });
    let wanted = over_second::answer_by(&smallest, rules).line(smallest.guest());
    let answered = line_of(&smallest, &backend.ask(&smallest));
    let name = backend.name();
    let question = show(&smallest);
    format!("difference: {question}  second: {wanted}\n  {name}: {answered}\n")
}

/// What a reply says, as a line.
pub fn line_of(question: &Question, reply: &Reply) -> String {
    match reply {
        Reply::Answer(answer) => answer.line(question.guest()),
        Reply::Failed(why) => format!("({why})"),
        Reply::Outside => "outside the domain".into(),
    }
}

fn last_line(outcome: &Outcome, asked: &[Box<dyn Backend>]) -> String {
    let mut line = format!("cases: {}", counts(&outcome.cases));
    for (backend, compared) in asked.iter().zip(&outcome.compared) {
        line += &format!("; {} compared on {}", backend.name(), counts(compared));
    }
    let departures = departures::counts(&outcome.departures);
    line += &format!("; over maps: {}", outcome.over_maps);
    for (backend, compared) in asked.iter().zip(&outcome.compared_over_maps) {
        line += &format!(", {} {compared}", backend.name());
    }
    let differences = outcome.difference_count;
    line + &format!(
        "; {}; departures: {departures}; unexplained: {differences}",
        reached(outcome)
    )
}

fn counts(counts: &[u64; Area::COUNT]) -> String {
    let named = Area::ALL.into_iter().zip(counts);
    let words = named.map(|(area, count)| format!("{} {count}", area.name()));
    words.collect::<Vec<_>>().join(", ")
}

/// How often each refusal was wanted: a number that is seldom reached is seldom compared.
fn frequencies(outcome: &Outcome) -> String {
    let entry = |(number, count): (&u8, &u64)| format!("{number} x {count}");
    let entries: Vec<String> = outcome.numbers.iter().map(entry).collect();
    format!("refusals: {}", entries.join(", "))
}

fn reached(outcome: &Outcome) -> String {
    let (reached, missed): (Vec<u8>, Vec<u8>) = REACHABLE
        .into_iter()
        .partition(|number| outcome.numbers.contains_key(number));
    let words = |numbers: &[u8]| {
        numbers
            .iter()
            .map(u8::to_string)
            .collect::<Vec<_>>()
            .join(" ")
    };
    let mut text = format!("numbers reached: {}", words(&reached));
    if !missed.is_empty() {
        text += &format!(" (missed: {})", words(&missed));
    }
    text
}
