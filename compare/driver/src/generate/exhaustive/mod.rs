//! Every case of a kind near the worked examples: each byte with each value, each length, and the limits of each field crossed;
//! program headers of each kind in each order; small maps; and every split of small loads into portions.

mod arm64;
mod boot;
mod boot_fields;
mod boot_pairs;
mod image;
mod job;
mod line;
mod maps;
mod note;
mod page;
mod start;
mod steps;
mod words;

use crate::generate::headers;
use crate::question::{Area, Question};

pub fn exhaustive(area: Area) -> Box<dyn Iterator<Item = Question>> {
    Box::new(over_whole_slices(area).chain(maps::maps(area)))
}

fn over_whole_slices(area: Area) -> Box<dyn Iterator<Item = Question>> {
    match area {
        Area::Elf => Box::new(
            image::elf()
                .chain(headers::each_sequence())
                .map(Question::Elf),
        ),
        Area::Note => Box::new(note::note().map(Question::Note)),
        Area::Bzimage => Box::new(image::bzimage().map(Question::Bzimage)),
        Area::Line => Box::new(line::line().map(Question::Line)),
        Area::LineLoad => Box::new(line::line_load().map(Question::LineLoad)),
        Area::Words => Box::new(words::words().map(Question::Words)),
        Area::Page => Box::new(page::page()),
        Area::Steps => Box::new(steps::steps().map(Question::Steps)),
        Area::Job => Box::new(job::jobs().map(Question::Job)),
        Area::Arm64 => Box::new(arm64::arm64().map(Question::Arm64)),
        Area::Start => Box::new(start::start()),
        Area::Boot => Box::new(boot::boots().map(Question::Boot)),
    }
}
