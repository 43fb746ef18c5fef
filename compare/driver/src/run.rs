//! One comparison: many questions, asked of everyone, in parts that threads share out.

use crate::backend::{Backend, Maker, Reply};
use crate::departures::{Answers, Counts, Wanted};
use crate::generate;
use crate::question::{Area, Question};
use crate::rng::Rng;
use std::collections::BTreeMap;
use std::sync::atomic::{AtomicBool, AtomicUsize, Ordering};
use std::sync::Mutex;
use std::time::{Duration, Instant};

/// How many random questions make a part. A part has random numbers of its own, so that the result does not depend on
/// how many threads there are.
const PART: u64 = 8192;
/// One in so many random ELF loads is about the rules that depart from the published crate's.
const DEPARTING: u64 = 4;
/// One in so many random questions with a guest is over a map.
const OVER_MAP: u64 = 3;
/// The exhaustive questions of an area are dealt out to this many parts, and the tables of jobs to more, since each
/// starts a program.
pub const EXHAUSTIVE_PARTS: usize = 16;
pub const TABLE_PARTS: usize = 64;

pub struct Plan {
    pub seed: u64,
    /// The areas that are asked about.
    pub areas: Vec<Area>,
    /// How many random questions for each area, in the order of `Area::ALL`.
    pub random: [u64; Area::COUNT],
    /// How many parts of the exhaustive questions are asked, too.
    pub exhaustive: usize,
    /// And how many of the tables of jobs.
    pub tables: usize,
    pub threads: usize,
    /// Ends at the first difference.
    pub stop_at_difference: bool,
    pub show_progress: bool,
}

/// A question that two answered differently.
pub struct Difference {
    pub question: Question,
    /// Which of the backends differed.
    pub backend: usize,
}

#[derive(Default)]
pub struct Outcome {
    pub cases: [u64; Area::COUNT],
    /// How many of them are over a map.
    pub over_maps: u64,
    /// How often each refusal was the wanted answer.
    pub numbers: BTreeMap<u8, u64>,
    /// How many questions of each area each backend was compared on; the others lay outside its domain.
    pub compared: Vec<[u64; Area::COUNT]>,
    /// How many of these are over a map.
    pub compared_over_maps: Vec<u64>,
    /// How many questions the proved code must answer otherwise than the published crate, by the departures that explain it.
    pub departures: Counts,
    pub difference_count: u64,
    /// The first few of each part, in the order of the parts.
    pub differences: Vec<Difference>,
}

#[derive(Clone, Copy)]
enum Source {
    Exhaustive { part: usize },
    Random { part: u64, count: u64 },
}

type Part = (Area, Source);

/// Asks the questions of the plan; `wanted` gives the answer that a backend is held to by its rules.
pub fn run(plan: &Plan, wanted: Wanted, backends: &[&Maker]) -> Outcome {
    let parts = parts(plan);
    let next = AtomicUsize::new(0);
    let stop = AtomicBool::new(false);
    let progress = Progress::new(plan.show_progress, parts.len());
    let done = Mutex::new(Vec::new());
    std::thread::scope(|scope| {
        for _ in 0..plan.threads {
            scope.spawn(|| {
                let mut asked: Vec<_> = backends.iter().map(|make| make()).collect();
                while !stop.load(Ordering::Relaxed) {
                    let index = next.fetch_add(1, Ordering::Relaxed);
                    let Some(part) = parts.get(index) else { break };
                    let outcome = run_part(plan, *part, wanted, &mut asked);
                    if plan.stop_at_difference && outcome.difference_count > 0 {
                        stop.store(true, Ordering::Relaxed);
                    }
                    progress.add(&outcome);
                    done.lock()
                        .expect("no thread panics")
                        .push((index, outcome));
                }
            });
        }
    });
    let mut done = done.into_inner().expect("no thread panics");
    done.sort_by_key(|(index, _)| *index);
    let mut total = Outcome::default();
    for (_, outcome) in done {
        total.add(outcome);
    }
    total
}

/// All parts, the areas in turn, so that a mistake in any area is met early.
fn parts(plan: &Plan) -> Vec<Part> {
    let mut parts = Vec::new();
    for part in 0..EXHAUSTIVE_PARTS.max(TABLE_PARTS) {
        let of_part = plan.areas.iter().filter(|area| match area {
            Area::Job => part < plan.tables.min(TABLE_PARTS),
            _ => part < plan.exhaustive.min(EXHAUSTIVE_PARTS),
        });
        parts.extend(of_part.map(|area| (*area, Source::Exhaustive { part })));
    }
    let longest = plan.random.iter().max().expect("there are areas");
    for part in 0..longest.div_ceil(PART) {
        for area in &plan.areas {
            let random = plan.random[*area as usize];
            let count = random.saturating_sub(part * PART).min(PART);
            if count > 0 {
                parts.push((*area, Source::Random { part, count }));
            }
        }
    }
    parts
}

fn run_part(
    plan: &Plan,
    (area, source): Part,
    wanted: Wanted,
    backends: &mut [Box<dyn Backend>],
) -> Outcome {
    let mut outcome = Outcome {
        compared: vec![[0; Area::COUNT]; backends.len()],
        compared_over_maps: vec![0; backends.len()],
        ..Outcome::default()
    };
    for question in questions(plan.seed, area, source) {
        let answers = Answers::to(&question, wanted);
        outcome.cases[area as usize] += 1;
        outcome.over_maps += u64::from(question.map().is_some());
        for number in answers.landed.numbers() {
            *outcome.numbers.entry(number).or_default() += 1;
        }
        if let Some(names) = answers.explained(&question, wanted) {
            *outcome.departures.entry(names).or_default() += 1;
        }
        for (index, backend) in backends.iter_mut().enumerate() {
            outcome.compare(&question, &answers, index, backend.as_mut());
        }
        if plan.stop_at_difference && outcome.difference_count > 0 {
            break;
        }
    }
    outcome
}

fn questions(seed: u64, area: Area, source: Source) -> Box<dyn Iterator<Item = Question>> {
    match source {
        Source::Exhaustive { part } => {
            let parts = match area {
                Area::Job => TABLE_PARTS,
                _ => EXHAUSTIVE_PARTS,
            };
            Box::new(generate::exhaustive(area).skip(part).step_by(parts))
        }
        Source::Random { part, count } => {
            let mut rng = Rng::for_part(seed, area as u64, part);
            Box::new((0..count).map(move |index| {
                let question = match area {
                    Area::Elf if index % DEPARTING == 0 => generate::departing(&mut rng),
                    _ => generate::random(area, &mut rng),
                };
                match index % OVER_MAP {
                    0 => generate::over_map(question, &mut rng),
                    _ => question,
                }
            }))
        }
    }
}

impl Outcome {
    /// How many differing questions of a part are kept to be shown.
    const KEPT: usize = 4;

    fn compare(
        &mut self,
        question: &Question,
        answers: &Answers,
        index: usize,
        backend: &mut dyn Backend,
    ) {
        let reply = backend.ask(question);
        if !matches!(reply, Reply::Outside) {
            self.compared[index][question.area() as usize] += 1;
            self.compared_over_maps[index] += u64::from(question.map().is_some());
        }
        if !backend.agrees(question, answers.by(backend.rules()), &reply) {
            self.difference_count += 1;
            if self.differences.len() < Outcome::KEPT {
                self.differences.push(Difference {
                    question: question.clone(),
                    backend: index,
                });
            }
        }
    }

    fn add(&mut self, other: Outcome) {
        add_counts(&mut self.cases, &other.cases);
        self.over_maps += other.over_maps;
        for (number, count) in other.numbers {
            *self.numbers.entry(number).or_default() += count;
        }
        self.compared.resize(other.compared.len(), [0; Area::COUNT]);
        for (sum, compared) in self.compared.iter_mut().zip(&other.compared) {
            add_counts(sum, compared);
        }
        let of_other = &other.compared_over_maps;
        self.compared_over_maps.resize(of_other.len(), 0);
        for (sum, compared) in self.compared_over_maps.iter_mut().zip(of_other) {
            *sum += compared;
        }
        for (names, count) in other.departures {
            *self.departures.entry(names).or_default() += count;
        }
        self.difference_count += other.difference_count;
        self.differences.extend(other.differences);
    }
}

fn add_counts(sums: &mut [u64; Area::COUNT], counts: &[u64; Area::COUNT]) {
    for (sum, count) in sums.iter_mut().zip(counts) {
        *sum += count;
    }
}

/// Says on standard error how far the run is, every few seconds.
struct Progress {
    show: bool,
    parts: usize,
    state: Mutex<State>,
}

struct State {
    began: Instant,
    said: Instant,
    parts: usize,
    cases: u64,
    differences: u64,
}

impl Progress {
    fn new(show: bool, parts: usize) -> Progress {
        let now = Instant::now();
        let state = Mutex::new(State {
            began: now,
            said: now,
            parts: 0,
            cases: 0,
            differences: 0,
        });
        Progress { show, parts, state }
    }

    fn add(&self, outcome: &Outcome) {
        let mut state = self.state.lock().expect("no thread panics");
        state.parts += 1;
        state.cases += outcome.cases.iter().sum::<u64>();
        state.differences += outcome.difference_count;
        let whole = state.parts == self.parts;
        if self.show && (whole || state.said.elapsed() > Duration::from_secs(3)) {
            state.said = Instant::now();
            let seconds = state.began.elapsed().as_secs_f64();
            eprintln!(
                "part {} of {}: {} cases, {} differences, {:.0} cases a second",
                state.parts,
                self.parts,
                state.cases,
                state.differences,
                state.cases as f64 / seconds
            );
        }
    }
}

#[cfg(test)]
mod tests {
    use super::*;
    use crate::over_second::{self, Second};
    use second::Rules;

    fn outcome(seed: u64, threads: usize) -> Outcome {
        let plan = Plan {
            seed,
            areas: Area::ALL.to_vec(),
            random: [300, 300, 20, 9000, 300, 300, 40, 50, 30, 300, 40, 60],
            exhaustive: 0,
            tables: 0,
            threads,
            stop_at_difference: false,
            show_progress: false,
        };
        let rules = Rules::landed();
        let maker: Maker = Box::new(move || Box::new(Second { rules }));
        run(&plan, over_second::answer_by, &[&maker])
    }

    #[test]
    fn one_seed_gives_one_result_on_any_number_of_threads() {
        let first = outcome(5, 1);
        assert_eq!(
            first.cases,
            [300, 300, 20, 9000, 300, 300, 40, 50, 30, 300, 40, 60]
        );
        assert_eq!(first.numbers, outcome(5, 3).numbers);
        assert_ne!(first.numbers, outcome(6, 1).numbers);
        // a third of the boots, and those that have a map of their own
        let boots = first.over_maps - (100 + 7 + 100 + 10 + 300);
        assert!((20..60).contains(&boots), "{boots}");
        assert_eq!(first.difference_count, 0);
        assert_eq!(first.compared, [first.cases]);
        assert_eq!(first.compared_over_maps, [first.over_maps]);
    }
}
