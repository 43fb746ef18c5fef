//! The dearest images: every program header is a note header, and all are over the same notes, so that a load looks at each note once for
//! each of them. The plain loader does not walk notes.

use crate::contestants::Contestant;
use crate::images;
use crate::memory::Memory;
use crate::report::duration;
use crate::rounds::spread;
use std::time::Instant;

/// Note headers, and the notes that each has, of 12 bytes. The last is an image of 4 MiB with as many of both as go into it.
const CASES: [(usize, usize); 3] = [(1_000, 1_000), (65_535, 1_000), (65_535, 43_690)];

/// How often an image is loaded; one at which so many note headers are looked at is loaded once.
const ROUNDS: usize = 5;
const LONG: usize = 1_000_000_000;

/// Loads each image by each contestant that walks notes, and prints a table.
pub fn print(contestants: &[Box<dyn Contestant>]) {
    let walkers: Vec<_> = contestants.iter().filter(|one| one.walks_notes()).collect();
    println!("Note headers over the same notes:\n");
    let names: Vec<_> = walkers.iter().map(|one| one.name()).collect();
    println!(
        "| note headers | notes of each | image | looked at | {} |",
        names.join(" | ")
    );
    println!("|---|---|---|---|{}", "---|".repeat(names.len()));
    for (headers, notes) in CASES {
        let image = images::notes(headers, notes);
        let looks = headers * notes;
        let cells: Vec<_> = walkers
            .iter()
            .map(|walker| {
                let mut guest = Memory::filled(1 << 20, 1);
                let mut load = walker.elf(&mut guest, &image);
                let rounds = if looks < LONG { ROUNDS } else { 1 };
                let times = (0..rounds).map(|_| {
                    let start = Instant::now();
                    load();
                    start.elapsed().as_secs_f64()
                });
                let seconds = spread(times.collect()).median;
                let of_one = seconds / looks as f64 * 1e9;
                format!("{}, {of_one:.1} ns a note", duration(seconds))
            })
            .collect();
        println!(
            "| {headers} | {notes} | {:.1} MiB | {:.1} million | {} |",
            image.len() as f64 / f64::from(1 << 20),
            looks as f64 / 1e6,
            cells.join(" | ")
        );
    }
}

#[cfg(test)]
mod tests {
    use super::*;
    use rekusoyen::loader::elf::PvhBootCapability;
    use rekusoyen::loader::Elf;

    /// Every header is walked, and no note is the wanted one.
    #[test]
    fn no_note_is_found() {
        let image = images::notes(3, 5);
        let loaded = Elf::load_into(&mut Memory::filled(1, 1), None, &image, None).unwrap();
        assert_eq!(loaded.pvh_boot_cap, PvhBootCapability::PvhEntryNotPresent);
        // one byte less, and the last note of each header is cut off
        let cut = &image[..image.len() - 1];
        assert!(Elf::load_into(&mut Memory::filled(1, 1), None, cut, None).is_err());
    }

    #[test]
    fn the_last_image_has_4_mib() {
        let (headers, notes) = CASES[2];
        assert!((4 << 20) - 64 - 56 * headers - 12 * notes < 12);
    }
}
