//! Every split of small loads into portions, with and without refused calls between them; every three budgets at the limits; and each byte of
//! a small image changed between two steps.

use crate::examples;
use crate::generate::steps::{image, Header};
use crate::question::{Loader, Options, StepCall, Steps};
use second::map::whole;

/// The guest, and the one hole of its map.
const GUEST: u64 = 20;
const MAP: [u64; 4] = [0, 17, 18, 2];

pub fn steps() -> impl Iterator<Item = Steps> {
    let splits = elf_loads().chain(bzimage_loads()).flat_map(|load| {
        let splits = each_split(load.bytes_written);
        splits.flat_map(move |budgets| [load.plain(&budgets), load.with_refused(&budgets)])
    });
    splits
        .chain(each_three())
        .chain(each_change())
        .chain(arm64())
}

/// A load, and how many bytes it writes.
#[derive(Clone)]
struct Small {
    loader: Loader,
    offset: Option<u64>,
    image: Vec<u8>,
    bytes_written: u64,
}

impl Small {
    fn call(&self, budget: u64) -> StepCall {
        StepCall {
            budget,
            place: 0,
            length: self.image.len() as u32,
            guest: GUEST as u32,
            is_whole: false,
        }
    }

    fn steps(&self, calls: Vec<StepCall>) -> Steps {
        Steps {
            loader: self.loader,
            options: Options {
                offset: self.offset,
                highmem: None,
            },
            map: MAP.to_vec(),
            bytes: self.image.clone(),
            guest: examples::guest(GUEST as usize),
            calls,
        }
    }

    /// A step for each budget, and one after the answer.
    fn plain(&self, budgets: &[u64]) -> Steps {
        let budgets = budgets.iter().chain(&[1]);
        self.steps(budgets.map(|budget| self.call(*budget)).collect())
    }

    /// The same, with a call of each kind that is refused behind each.
    fn with_refused(&self, budgets: &[u64]) -> Steps {
        let with_refused = |budget: &u64| {
            let call = self.call(*budget);
            let none = StepCall { budget: 0, ..call };
            let bad_map = StepCall { guest: 19, ..call };
            let other_map = StepCall {
                is_whole: true,
                ..call
            };
            let shorter = StepCall {
                length: call.length - 1,
                ..call
            };
            [call, none, bad_map, other_map, shorter]
        };
        let budgets = budgets.iter().chain(&[1]);
        self.steps(budgets.flat_map(with_refused).collect())
    }
}

/// Three segments of up to three bytes each, apart and over each other, with a header between them that is not loaded.
fn elf_loads() -> impl Iterator<Item = Small> {
    let addresses = [[2, 9, 14], [5, 6, 4]].into_iter();
    addresses.flat_map(|addresses| {
        (0..64u64).map(move |sizes| {
            let sizes = [sizes % 4, sizes / 4 % 4, sizes / 16];
            let header = |index: usize| -> Header {
                let size = sizes[index];
                (1, 3 * index as u64, addresses[index], size, size + 1)
            };
            let headers = [header(0), header(1), (2, 0, 0, 3, 3), header(2)];
            Small {
                loader: Loader::Elf,
                offset: None,
                image: image(&headers, &[1, 2, 3, 4, 5, 6, 7, 8, 9]),
                bytes_written: sizes.iter().sum(),
            }
        })
    })
}

fn bzimage_loads() -> impl Iterator<Item = Small> {
    (0..=8).map(|kernel| {
        let mut image = examples::small_bzimage().image;
        image.truncate(1024);
        image.extend(1..=kernel);
        Small {
            loader: Loader::Bzimage,
            offset: Some(5),
            image,
            bytes_written: kernel.into(),
        }
    })
}

/// The small arm64 Image, whose bytes are too many for every split: every first budget, a second that copies the rest or one byte less, and one more.
fn arm64() -> impl Iterator<Item = Steps> {
    let load = examples::small_arm64();
    let total = load.image.len() as u64;
    (1..=total + 1).flat_map(move |first| {
        let rest = total.saturating_sub(first);
        let load = load.clone();
        [rest, rest.saturating_sub(1)].map(|second| Steps {
            loader: Loader::Arm64,
            options: load.options,
            map: whole(load.guest.len()),
            bytes: load.image.clone(),
            guest: load.guest.clone(),
            calls: [first, second, 1]
                .map(|budget| StepCall {
                    budget,
                    place: 0,
                    length: u32::MAX,
                    guest: u32::MAX,
                    is_whole: false,
                })
                .to_vec(),
        })
    })
}

/// Every list of budgets that add up to so many bytes; of none, one budget of 1.
fn each_split(bytes: u64) -> impl Iterator<Item = Vec<u64>> {
    let places = bytes.saturating_sub(1);
    (0..1u64 << places).map(move |split| {
        let mut budgets = vec![1];
        for place in 0..places {
            if split >> place & 1 == 1 {
                budgets.push(0);
            }
            *budgets.last_mut().expect("there is one") += 1;
        }
        budgets
    })
}

/// Three budgets of every kind, and then one of 1.
fn each_three() -> impl Iterator<Item = Steps> {
    const BUDGETS: [u64; 9] = [0, 1, 2, 3, 4, 5, 6, u64::MAX - 1, u64::MAX];
    let loads = [elf_loads().nth(50), bzimage_loads().nth(5)];
    loads.into_iter().flatten().flat_map(|load| {
        (0..9 * 9 * 9).map(move |number| {
            let budgets = [number % 9, number / 9 % 9, number / 81];
            load.plain(&budgets.map(|index| BUDGETS[index]))
        })
    })
}

/// A load of two segments of which each byte changes between two steps, and changes back before a third.
fn each_change() -> impl Iterator<Item = Steps> {
    let headers = [(1, 0, 3, 3, 3), (1, 3, 8, 3, 3)];
    let whole = image(&headers, &[1, 2, 3, 4, 5, 6]);
    (0..whole.len()).flat_map(move |place| {
        let whole = whole.clone();
        [0, 1, 2, 56, 255].into_iter().map(move |byte| {
            let mut bytes = whole.clone();
            bytes.extend_from_within(..);
            bytes[whole.len() + place] = byte;
            let small = Small {
                loader: Loader::Elf,
                offset: None,
                image: whole.clone(),
                bytes_written: 6,
            };
            let mut steps = small.plain(&[2, 2, 1]);
            steps.calls[1].place = whole.len() as u32;
            Steps { bytes, ..steps }
        })
    })
}

#[cfg(test)]
mod tests {
    use super::*;
    use std::collections::BTreeSet;

    #[test]
    fn every_split_is_there_once() {
        for bytes in 0..9u64 {
            let splits: BTreeSet<Vec<u64>> = each_split(bytes).collect();
            assert_eq!(splits.len(), 1 << bytes.saturating_sub(1));
            let whole = bytes.max(1);
            assert!(splits
                .iter()
                .all(|split| split.iter().sum::<u64>() == whole));
            assert!(splits.iter().flatten().all(|budget| *budget > 0));
        }
    }
}
