//! A small sample of questions with their answers, which is replayed over the C library without Rust.

use crate::answer::Answer;
use crate::backend::{Maker, Reply};
use crate::cases;
use crate::compare;
use crate::departures::Answers;
use crate::encode::framed;
use crate::examples;
use crate::generate;
use crate::over_second;
use crate::question::{Area, Load, Question};
use crate::rng::Rng;
use crate::unclaimed;
use std::collections::BTreeMap;
use std::fs;
use std::io::Result;
use std::path::Path;

/// The seed of the random questions; another seed makes another sample.
const SEED: u64 = 1;

/// How many bytes the random questions of an area and their answers may take. Jobs are asked of the desk program,
/// which has no such form, and boots are not in the sample.
const BUDGET: [(Area, usize); Area::COUNT - 2] = [
    (Area::Elf, 150_000),
    (Area::Note, 86_500),
    (Area::Bzimage, 90_000),
    (Area::Line, 140_000),
    (Area::LineLoad, 60_000),
    (Area::Words, 30_000),
    (Area::Page, 60_000),
    (Area::Steps, 30_000),
    (Area::Arm64, 24_000),
    (Area::Start, 40_000),
];

/// And those of an area over maps, which come behind all others.
const BUDGET_OVER_MAPS: [(Area, usize); 4] = [
    (Area::Elf, 26_000),
    (Area::Bzimage, 18_000),
    (Area::LineLoad, 18_000),
    (Area::Arm64, 10_000),
];

/// A question longer than this would take the room of many others.
const LONGEST: usize = 1_300;

/// Who gave an answer of the sample.
#[derive(Default)]
struct Sources {
    /// The published crate, in every word.
    published: usize,
    /// The published crate, with what it does not tell taken from the second program.
    completed: usize,
    /// The second program, for the question lies outside the crate's domain: the lines of these answers.
    second: Vec<usize>,
    /// The second program, for its rules depart from the crate's: the lines of these answers, by the departures.
    departed: BTreeMap<String, Vec<usize>>,
}

impl Sources {
    /// The line that is answered next, counted from 1.
    fn next_line(&self) -> usize {
        let departed: usize = self.departed.values().map(Vec::len).sum();
        self.published + self.completed + self.second.len() + departed + 1
    }
}

/// Writes `questions` and `answers` into the folder.
pub fn write(folder: &Path, published: Option<&Maker>) -> Result<()> {
    let mut published = published.map(|make| make());
    let mut sources = Sources::default();
    let (mut questions, mut lines) = (Vec::new(), String::new());
    for question in questions_of_sample() {
        let reply = match &mut published {
            Some(published) => published.ask(&question),
            None => Reply::Outside,
        };
        lines += &answer(&question, &reply, &mut sources).line(question.guest());
        lines += "\n";
        questions.extend(framed(&question));
    }
    fs::write(folder.join("questions"), &questions)?;
    fs::write(folder.join("answers"), &lines)?;
    println!(
        "sample: {} questions, {} and {} bytes; answered by the crate {}, by the crate with parts from the second program {}, by \
         the second program alone {}",
        lines.lines().count(),
        questions.len(),
        lines.len(),
        sources.published,
        sources.completed,
        sources.second.len()
    );
    println!("the second program alone: {}", in_words(&sources.second));
    for (names, of_departure) in &sources.departed {
        println!(
            "the second program, for {names}: {}",
            in_words(of_departure)
        );
    }
    Ok(())
}

/// How many lines there are, and which.
fn in_words(lines: &[usize]) -> String {
    let numbers: Vec<String> = lines.iter().map(usize::to_string).collect();
    format!("{} lines, {}", lines.len(), numbers.join(" "))
}

/// The crate's answer as far as its domain goes, and as the rules do not depart from it.
fn answer(question: &Question, reply: &Reply, sources: &mut Sources) -> Answer {
    let answers = Answers::to(question, over_second::answer_by);
    let line = sources.next_line();
    if let Some(names) = answers.explained(question, over_second::answer_by) {
        sources.departed.entry(names).or_default().push(line);
        return answers.landed;
    }
    let second = answers.landed;
    let Reply::Answer(answer) = reply else {
        sources.second.push(line);
        return second;
    };
    let whole = compare::completed(question, answer, &second);
    if whole == *answer {
        sources.published += 1;
    } else {
        sources.completed += 1;
    }
    whole
}

fn questions_of_sample() -> Vec<Question> {
    let mut questions = examples::all();
    questions.extend(cut_short());
    for (area, budget) in BUDGET {
        let rng = Rng::for_part(SEED, area as u64, 0);
        questions.extend(random(rng, budget, |rng| claimed(area, rng)));
    }
    questions.extend(cases::all().into_iter().map(|(question, _)| question));
    let smallest = examples::departures().into_iter();
    questions.extend(smallest.map(|(.., load)| Question::Elf(load)));
    for (area, budget) in BUDGET_OVER_MAPS {
        let rng = Rng::for_part(SEED, area as u64, 1);
        questions.extend(random(rng, budget, |rng| {
            let question = generate::random(area, rng);
            generate::over_map(question, rng)
        }));
    }
    questions
}

/// A random question of an area whose whole answer is claimed.
fn claimed(area: Area, rng: &mut Rng) -> Question {
    let questions = std::iter::repeat_with(|| generate::random(area, rng));
    let is_claimed = |question: &Question| match (question, over_second::answer(question)) {
        (Question::Steps(asked), Answer::Steps(told)) => unclaimed::first(asked, &told).is_none(),
        _ => true,
    };
    let mut claimed = questions.filter(is_claimed);
    claimed.next().expect("most questions are")
}

/// Random questions that are not long, as many as the budget of bytes allows for them and their answers.
fn random(mut rng: Rng, budget: usize, make: impl Fn(&mut Rng) -> Question) -> Vec<Question> {
    let mut questions = Vec::new();
    let mut left = budget;
    loop {
        let question = make(&mut rng);
        let bytes = framed(&question).len();
        if bytes > LONGEST {
            continue;
        }
        let answer = over_second::answer(&question).line(question.guest());
        let Some(rest) = left.checked_sub(bytes + answer.len()) else {
            return questions;
        };
        left = rest;
        questions.push(question);
    }
}

/// Good images cut at every place where it matters.
fn cut_short() -> impl Iterator<Item = Question> {
    let cut = |load: Load, lengths: std::ops::Range<usize>, step| {
        lengths.step_by(step).map(move |length| {
            let mut load = load.clone();
            load.image.truncate(length);
            load
        })
    };
    let small = cut(examples::small_elf(), 0..123, 3);
    let notes = cut(examples::elf_with_notes(), 230..281, 2);
    let bzimage = cut(examples::small_bzimage(), 0x1f0..0x1f0 + 125, 9);
    let bzimage = bzimage.chain(cut(examples::small_bzimage(), 1022..1028, 1));
    let elf = small.chain(notes).map(Question::Elf);
    elf.chain(bzimage.map(Question::Bzimage))
}

#[cfg(test)]
mod tests {
    use super::*;
    use std::collections::BTreeSet;

    #[test]
    fn the_sample_is_small_and_reaches_every_number() {
        let questions = questions_of_sample();
        let answers: Vec<Answer> = questions.iter().map(over_second::answer).collect();
        let numbers: BTreeSet<u8> = answers.iter().flat_map(Answer::numbers).collect();
        let wanted: BTreeSet<u8> = (1..=14)
            .chain(21..=24)
            .chain(31..=32)
            .chain(41..=51)
            .chain(61..=64)
            .chain(71..=80)
            .chain(81..=88)
            .collect();
        assert_eq!(numbers, wanted);
        let bytes: usize = questions
            .iter()
            .map(|question| framed(question).len())
            .sum();
        let lines = questions.iter().zip(&answers);
        let lines: usize = lines
            .map(|(question, answer)| answer.line(question.guest()).len() + 1)
            .sum();
        assert!(bytes + lines < 1 << 20, "{bytes} and {lines}");
        assert!(questions.len() > 2000, "{} questions", questions.len());
    }
}
