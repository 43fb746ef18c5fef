//! How long the same works take three contestants, in one process and on the same bytes: the proved library, a plain Rust loader
//! and, where it can be had, the published crate.

mod chart;
pub mod contestants;
#[path = "../../../rust/src/ffi.rs"]
mod ffi;
pub mod images;
pub mod memory;
mod notes;
mod plain;
mod plain_line;
mod ranges;
mod report;
pub mod rounds;
mod scaling;
mod steps;
mod words;
mod works;

use contestants::{Contestant, Library, Plain};
use memory::{Memory, GUEST};
use rekusoyen::entry;
use works::Pages;

/// Without words: checks that all contestants do the same, measures them, and prints the tables. With the words CONTESTANT WORK
/// TIMES, `ranges` HEADERS RANGES TIMES, `steps` HEADERS PASSED STEPS, or `scaling` SERIES SIZE TIMES: does one work so often, for a
/// profiler to look at. `scaling` lists every series and size; `scaling` COUNTS FOLDER measures them, prints their tables and writes their
/// plots; `notes` loads the dearest images.
pub fn run(published: Option<Box<dyn Contestant>>) {
    let mut contestants: Vec<Box<dyn Contestant>> = vec![Box::new(Plain), Box::new(Library)];
    contestants.extend(published);
    let words: Vec<_> = std::env::args().skip(1).collect();
    match words.as_slice() {
        [] => {
            let works = works::all();
            works::check(&works, &contestants);
            report::print(&works, &contestants);
            ranges::print();
            words::print();
            steps::print();
        }
        [word] if word == "notes" => notes::print(&contestants),
        [word] if word == "scaling" => scaling::list(),
        [word, counts, folder] if word == "scaling" => {
            scaling::print(counts.as_ref(), folder.as_ref());
        }
        [word, series, size, times] if word == "scaling" => {
            let all = scaling::all();
            let series = all.iter().find(|one| one.name == series);
            let number = |word: &String| word.parse::<usize>().expect("a number");
            let series = series.expect("a series' name");
            series.repeat(number(size), number(times) as u32);
        }
        [word, headers, ranges, times] if word == "ranges" => {
            let number = |word: &String| word.parse::<usize>().expect("a number");
            ranges::repeat(number(headers), number(ranges), number(times) as u32);
        }
        [word, headers, passed, steps] if word == "steps" => {
            let number = |word: &String| word.parse::<usize>().expect("a number");
            steps::repeat(number(headers), number(passed), number(steps));
        }
        [name, line, times] if words::lines().iter().any(|one| one.name == line) => {
            let reader = words::READERS.iter().find(|(reader, _)| reader == name);
            let (_, reader) = reader.expect("plain or library");
            let lines = words::lines();
            let line = lines.iter().find(|one| one.name == line);
            let times = times.parse().expect("a number of times");
            words::repeat(
                *reader,
                line.expect("a line's name"),
                &mut words::Lists::new(),
                times,
            );
        }
        [name, work, times] => {
            let contestant = contestants.iter().find(|one| one.name() == name);
            let contestant = contestant.expect("a contestant's name");
            let work = works::named(work).expect("a work's name");
            let times = times.parse().expect("a number of times");
            let mut guest = Memory::filled(GUEST, 1);
            work.repeat(contestant.as_ref(), Pages::Touched, &mut guest, times);
        }
        _ => panic!("the words are CONTESTANT WORK TIMES, ranges HEADERS RANGES TIMES, steps HEADERS PASSED STEPS, scaling .., notes, or none"),
    }
}
