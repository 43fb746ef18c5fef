//! Where questions come from: exhaustively near the worked examples, and at random around every limit.

mod arm64;
mod boot;
mod bzimage;
mod elf;
mod exhaustive;
mod headers;
pub mod job;
mod line;
mod load;
mod maps;
mod note;
mod page;
mod start;
mod steps;
mod text;
mod words;

pub use exhaustive::exhaustive;
pub use maps::over_map;
pub use steps::image as elf_image;

use crate::question::{Area, Question};
use crate::rng::Rng;

/// A random question of one area.
pub fn random(area: Area, rng: &mut Rng) -> Question {
    match area {
        Area::Elf => Question::Elf(elf::question(rng)),
        Area::Note => Question::Note(note::question(rng)),
        Area::Bzimage => Question::Bzimage(bzimage::question(rng)),
        Area::Line => Question::Line(line::calls(rng)),
        Area::LineLoad => Question::LineLoad(load::question(rng)),
        Area::Words => Question::Words(words::question(rng)),
        Area::Page => page::question(rng),
        Area::Steps => Question::Steps(steps::question(rng)),
        Area::Job => Question::Job(job::question(rng)),
        Area::Arm64 => Question::Arm64(arm64::question(rng)),
        Area::Start => start::question(rng),
        Area::Boot => Question::Boot(boot::question(rng)),
    }
}

/// A random question about the rules that depart from the published crate's.
pub fn departing(rng: &mut Rng) -> Question {
    Question::Elf(headers::question(rng))
}

/// Now and then a question is large: some hundred times the bytes of another, and so asked some thousand times less often.
fn is_large(rng: &mut Rng) -> bool {
    rng.one_in(4096)
}

/// A length of guest memory around a page, 64 KiB or 1 MiB.
fn large_guest_length(rng: &mut Rng) -> usize {
    rng.pick(&[4095, 4096, 4097, 65_535, 65_536, 65_537, 1 << 20])
}

/// A length of guest memory: mostly small, for that is where many addresses meet its end.
fn guest_length(rng: &mut Rng) -> usize {
    match rng.below(64) {
        0 => 0,
        1..=4 => 1,
        5..=8 => rng.length(65, 300),
        _ => rng.length(2, 64),
    }
}

/// Damages an image: cuts it, grows it, or changes some of its bytes.
fn damage(rng: &mut Rng, image: &mut Vec<u8>) {
    match rng.below(5) {
        0 => {
            let length = rng.length(0, image.len());
            image.truncate(length);
        }
        1 => image.push(rng.byte()),
        _ if image.is_empty() => {}
        2 => {
            let place = rng.length(0, image.len() - 1);
            image[place] ^= 1 << rng.below(8);
        }
        _ => {
            for _ in 0..rng.length(1, 4) {
                let place = rng.length(0, image.len() - 1);
                image[place] = rng.byte();
            }
        }
    }
}
