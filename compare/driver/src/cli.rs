//! The commands.

use crate::backend::Maker;
use crate::desk::{self, Desk};
use crate::images::images;
use crate::over_second;
use crate::planted_run::planted;
use crate::question::Area;
use crate::report::report;
use crate::run::{run, Plan, EXHAUSTIVE_PARTS};
use crate::sample;
use std::path::Path;
use std::process::exit;
use std::thread::available_parallelism;

const USAGE: &str = "\
compare run [WORDS]       asks everyone the same questions and compares all answers
compare planted [WORDS] [FILE..]
                          plants mistakes in a copy of the second program, or in these files of it; each must be noticed
compare sample FOLDER     writes a sample of questions to FOLDER/questions, and the answers to FOLDER/answers
compare images FILE..     loads real images by everyone and compares

--seed N                  the seed, 1 where none is given: one seed, one result
--threads N               how many threads ask, one for each processor where none is given
--elf N --note N --bzimage N --line N --load N --words N --page N --steps N --arm64 N --start N --job N --boot N
                          how many random questions of each area, beside the exhaustive ones
--exhaustive N            how many sixteenths of the exhaustive questions are asked, all 16 where none is given
--tables N                how many 64ths of the small tables of jobs are asked, 4 if none is given
--desk 'PROGRAM WORD..'   the desk program, which is started for each job; without it jobs are asked of nobody
";

/// How many random questions are asked if nothing else is said. A job starts a program.
const RANDOM: [u64; Area::COUNT] = [
    600_000, 200_000, 300_000, 200_000, 100_000, 100_000, 60_000, 80_000, 200_000, 150_000, 500,
    100_000,
];

/// How many of the 64 parts of the small tables of jobs are asked if nothing else is said.
const TABLES: usize = 4;

struct Words {
    seed: u64,
    threads: usize,
    random: [u64; Area::COUNT],
    exhaustive: usize,
    tables: usize,
    desk: Option<String>,
    others: Vec<String>,
}

/// Who is asked inside this process, beside the second program: what the binary was built with.
#[derive(Default)]
pub struct InProcess {
    pub published: Option<Maker>,
    /// The proved code, as a static library for this machine's processor.
    pub library: Option<Maker>,
}

/// Runs the command of the command line.
pub fn main(in_process: InProcess) {
    let mut arguments = std::env::args().skip(1);
    let command = arguments.next().unwrap_or_default();
    let words = words(arguments);
    let program = words.desk.as_ref().map(|desk| program(desk));
    let desk: Option<Maker> = program.clone().map(|program| -> Maker {
        Box::new(move || {
            let program = program.clone();
            Box::new(Desk { program })
        })
    });
    let InProcess { published, library } = &in_process;
    let backends: Vec<&Maker> = published.iter().chain(library).chain(&desk).collect();
    let good = match command.as_str() {
        "run" if backends.is_empty() => {
            eprintln!("compare: there is nobody to compare the second program with");
            exit(2)
        }
        "run" => {
            let plan = Plan {
                seed: words.seed,
                areas: areas(program.is_some()),
                random: words.random,
                exhaustive: words.exhaustive,
                tables: words.tables,
                threads: words.threads,
                stop_at_difference: false,
                show_progress: true,
            };
            let outcome = run(&plan, over_second::answer_by, &backends);
            let jobs_agree = program.map_or(true, |program| or_exit(desk::run(&program)));
            report(&outcome, &backends) && jobs_agree
        }
        "planted" => planted(words.seed, words.threads, published.as_ref(), &words.others),
        "sample" => match words.others.as_slice() {
            [folder] => {
                or_exit(sample::write(Path::new(folder), published.as_ref()).map(|()| true))
            }
            _ => usage(),
        },
        "images" => or_exit(images(&words.others, &backends)),
        _ => usage(),
    };
    exit(i32::from(!good));
}

fn words(arguments: impl Iterator<Item = String>) -> Words {
    let mut words = Words {
        seed: 1,
        threads: available_parallelism().map_or(2, usize::from),
        random: RANDOM,
        exhaustive: EXHAUSTIVE_PARTS,
        tables: TABLES,
        desk: None,
        others: Vec::new(),
    };
    let mut arguments = arguments;
    while let Some(word) = arguments.next() {
        let Some(name) = word.strip_prefix("--") else {
            words.others.push(word);
            continue;
        };
        let Some(value) = arguments.next() else {
            usage()
        };
        let number = || value.parse().unwrap_or_else(|_| usage());
        match name {
            "seed" => words.seed = number(),
            "threads" => words.threads = number() as usize,
            "exhaustive" => words.exhaustive = number() as usize,
            "tables" => words.tables = number() as usize,
            "desk" => words.desk = Some(value),
            _ => match Area::named(name) {
                Some(area) => words.random[area as usize] = number(),
                None => usage(),
            },
        }
    }
    words
}

/// The areas that are asked about: jobs if there is a desk program.
fn areas(jobs: bool) -> Vec<Area> {
    let areas = Area::ALL.into_iter();
    areas.filter(|area| jobs || *area != Area::Job).collect()
}

/// The name and arguments of a program.
fn program(command: &str) -> Vec<String> {
    let words: Vec<String> = command.split_whitespace().map(String::from).collect();
    if words.is_empty() {
        usage();
    }
    words
}

fn or_exit<T>(result: std::io::Result<T>) -> T {
    result.unwrap_or_else(|error| {
        eprintln!("compare: {error}");
        exit(2)
    })
}

fn usage() -> ! {
    eprint!("{USAGE}");
    exit(2)
}
