//! Each two parts at each two places of a small guest, addresses around its end and that of 2^64, lists of each small
//! length, each byte of a good block and its lists with some values, and each two things that are wrong with one.

use crate::answer::Answer;
use crate::over_second;
use crate::question::{Question, StartCheck, StartWrite};
use second::map::whole;

/// Room for the block and one row of each list, and two bytes more.
const LENGTH: usize = 56 + 32 + 24 + 2;

const MODULE: [u64; 4] = [0x0102_0304_0506_0708, 9, 10, 0];
const RANGE: [u64; 4] = [11, 12, 0x1314_1516, 0];

fn write(block: u64, modules_at: u64, ranges_at: u64) -> StartWrite {
    StartWrite {
        map: whole(LENGTH),
        block,
        modules_at,
        ranges_at,
        flags: 0xf1f2_f3f4,
        command_line: 0x8182_8384_8586_8788,
        rsdp: 0x9192_9394_9596_9798,
        modules: MODULE.to_vec(),
        ranges: RANGE.to_vec(),
        guest: vec![0xa5; LENGTH],
    }
}

pub fn start() -> impl Iterator<Item = Question> {
    let writes = two_parts()
        .chain(ends())
        .chain(lists())
        .chain(three_parts());
    let checks = bytes().chain(places()).chain(counts()).chain(pairs());
    writes
        .map(Question::StartWrite)
        .chain(checks.map(Question::StartCheck))
}

/// The block with one list, and the two lists, at each two places.
fn two_parts() -> impl Iterator<Item = StartWrite> {
    let places = |size: u64| 0..=LENGTH as u64 - size + 1;
    let modules = places(56).flat_map(move |a| {
        places(32).map(move |b| StartWrite {
            ranges: vec![],
            ..write(a, b, 0)
        })
    });
    let ranges = places(56).flat_map(move |a| {
        places(24).map(move |b| StartWrite {
            modules: vec![],
            ..write(a, 0, b)
        })
    });
    let lists = places(32).flat_map(move |a| places(24).map(move |b| write(0, a, b)));
    modules.chain(ranges).chain(lists)
}

/// The three parts in each order, each two touching, apart by one, or overlapping by one.
fn three_parts() -> impl Iterator<Item = StartWrite> {
    let sizes = [56u64, 32, 24];
    let orders = [
        [0, 1, 2],
        [0, 2, 1],
        [1, 0, 2],
        [1, 2, 0],
        [2, 0, 1],
        [2, 1, 0],
    ];
    orders.into_iter().flat_map(move |order| {
        (0..27u64).map(move |gaps| {
            let mut places = [0; 3];
            let mut next = gaps % 3;
            for (part, gap) in order.into_iter().zip([gaps / 3 % 3, gaps / 9, 0]) {
                places[part] = next;
                next = next + sizes[part] + gap - 1;
            }
            write(places[0], places[1], places[2])
        })
    })
}

/// A part around the end of guest memory, and around that of 2^64.
fn ends() -> impl Iterator<Item = StartWrite> {
    let far = |size: u64| {
        let near = (LENGTH as u64 - size - 2..=LENGTH as u64 + 2).collect::<Vec<_>>();
        let top = (0..size + 2).map(u64::wrapping_neg);
        near.into_iter().chain(top)
    };
    let block = far(56).map(|at| write(at, 0, 32));
    let modules = far(32).map(|at| write(0, at, 56));
    let ranges = far(24).map(|at| write(0, 56, at));
    block.chain(modules).chain(ranges)
}

/// Each length of a list, numbers around 32 bits, and each number of a row not 0.
fn lists() -> impl Iterator<Item = StartWrite> {
    let lengths = (0..14usize).flat_map(|n| {
        let rows = |row: [u64; 4]| row.into_iter().cycle().take(n).collect::<Vec<_>>();
        let wide = |start: StartWrite| StartWrite {
            map: whole(400),
            guest: vec![0x5a; 400],
            ..start
        };
        [
            wide(StartWrite {
                modules: rows(MODULE),
                ..write(0, 56, 300)
            }),
            wide(StartWrite {
                ranges: rows(RANGE),
                ..write(0, 300, 56)
            }),
        ]
    });
    let numbers = (0..4).flat_map(|field| {
        [0, 1, 0xffff_ffff, 1 << 32, u64::MAX]
            .into_iter()
            .flat_map(move |number| {
                let (mut modules, mut ranges) = (MODULE, RANGE);
                (modules[field], ranges[field]) = (number, number);
                [
                    StartWrite {
                        modules: modules.to_vec(),
                        ..write(0, 56, 88)
                    },
                    StartWrite {
                        ranges: ranges.to_vec(),
                        ..write(0, 56, 88)
                    },
                ]
            })
    });
    lengths.chain(numbers)
}

/// A good block, with its lists.
fn good() -> StartCheck {
    let written = write(1, 57, 89);
    let Answer::StartWrite { guest, .. } = over_second::answer(&Question::StartWrite(written))
    else {
        unreachable!("the answer is of the question's kind")
    };
    StartCheck {
        map: whole(LENGTH),
        block: 1,
        guest,
    }
}

/// Each byte with some values.
fn bytes() -> impl Iterator<Item = StartCheck> {
    (0..LENGTH).flat_map(|place| {
        [0, 1, 2, 0x7f, 0x80, 0xff].into_iter().map(move |byte| {
            let mut check = good();
            check.guest[place] = byte;
            check
        })
    })
}

/// Each place of the block, and each length of guest memory.
fn places() -> impl Iterator<Item = StartCheck> {
    let blocks = (0..=LENGTH as u64).chain((0..60u64).map(u64::wrapping_neg));
    let blocks = blocks.map(|block| StartCheck { block, ..good() });
    let lengths = (0..LENGTH).map(|length| {
        let guest = good().guest[..length].to_vec();
        StartCheck {
            map: whole(length),
            guest,
            ..good()
        }
    });
    blocks.chain(lengths)
}

/// Counts and addresses at each limit: a product of 32 bits would wrap.
fn counts() -> impl Iterator<Item = StartCheck> {
    let counts = [0, 1, 2, 3, 1 << 27, 1 << 28, 1 << 29, 1 << 31, u32::MAX];
    let addresses = [0, 1, 56, 57, 81, 82, 89, 90, 113, 114, 115, u64::MAX];
    [(12, 16), (48, 40)]
        .into_iter()
        .flat_map(move |(count_at, address_at)| {
            counts.into_iter().flat_map(move |count: u32| {
                addresses.into_iter().map(move |address: u64| {
                    let mut check = good();
                    check.guest[1 + count_at..][..4].copy_from_slice(&count.to_le_bytes());
                    check.guest[1 + address_at..][..8].copy_from_slice(&address.to_le_bytes());
                    check
                })
            })
        })
}

/// Each two of what a block may have wrong, whose first is answered: magic, version, reserved field, and of each list
/// the count and a reserved field.
fn pairs() -> impl Iterator<Item = StartCheck> {
    let wrong = [1, 5, 53, 1 + 15, 57 + 24, 1 + 51, 89 + 20];
    wrong.into_iter().flat_map(move |first| {
        wrong.into_iter().map(move |second| {
            let mut check = good();
            check.guest[first] = 0xee;
            check.guest[second] = 0xee;
            check
        })
    })
}
