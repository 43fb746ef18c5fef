//! Short texts through every call, and short lines put into small guests.

use crate::examples;
use crate::question::{Call, LineLoad};

pub fn line() -> impl Iterator<Item = Vec<Call>> {
    each_text_byte()
        .chain(each_key_and_value())
        .chain(each_whole_text())
        .chain(each_three_lengths())
        .chain(each_list())
        .chain(each_pair())
        .chain(each_device())
}

/// Every text over the alphabet of at most `longest` bytes.
pub fn texts(alphabet: &'static [u8], longest: u32) -> impl Iterator<Item = Vec<u8>> + Clone {
    let count = alphabet.len();
    (0..=longest).flat_map(move |length| {
        (0..count.pow(length)).map(move |number| {
            let digit = |place| alphabet[number / count.pow(place) % count];
            (0..length).map(digit).collect()
        })
    })
}

/// Each byte alone, at both ends and inside, through every call that takes a text.
fn each_text_byte() -> impl Iterator<Item = Vec<Call>> {
    (0..=255u8).flat_map(|byte| {
        let forms = [
            vec![byte],
            vec![byte, b'a'],
            vec![b'a', byte],
            vec![b'a', byte, b'b'],
        ];
        forms.into_iter().flat_map(|text| {
            let written = Call::AsCstring { room: 64 };
            let a = || b"a".to_vec();
            [
                Call::InsertStr(text.clone()),
                Call::InsertInitArgs(text.clone()),
                Call::Insert {
                    key: text.clone(),
                    value: a(),
                },
                Call::Insert {
                    key: a(),
                    value: text.clone(),
                },
                Call::InsertMultiple {
                    key: a(),
                    ends: vec![1, 1 + text.len() as u32],
                    values: [a(), text.clone()].concat(),
                },
                Call::TryFrom { capacity: 64, text },
            ]
            .map(|call| {
                let boot = Call::InsertStr(b"b".to_vec());
                vec![Call::New { capacity: 64 }, boot, call, written.clone()]
            })
        })
    })
}

/// All short keys with all short values, over bytes that some test looks at.
fn each_key_and_value() -> impl Iterator<Item = Vec<Call>> {
    let keys = texts(b"a =\"\x1f", 2);
    let values = texts(b"a \"=\x7f", 4);
    keys.flat_map(move |key| {
        values.clone().map(move |value| {
            let key = key.clone();
            let insert = Call::Insert { key, value };
            vec![
                Call::New { capacity: 6 },
                insert,
                Call::AsCstring { room: 6 },
            ]
        })
    })
}

/// All short whole texts, and all texts of short pieces, at every capacity around what they need.
fn each_whole_text() -> impl Iterator<Item = Vec<Call>> {
    let at_capacities = |text: Vec<u8>, from: u32| {
        let mut calls = Vec::new();
        for capacity in from..=from + text.len() as u32 + 1 {
            let text = text.clone();
            calls.push(Call::TryFrom { capacity, text });
            calls.push(Call::AsCstring { room: 64 });
        }
        calls
    };
    let short = texts(b"a \"-\0\t", 5).map(move |text| at_capacities(text, 0));
    let pieces = texts(b"a\" S-", 6).map(move |kinds| {
        let mut text = Vec::new();
        for kind in kinds {
            match kind {
                b'S' => text.extend(b" -- "),
                b'-' => text.extend(b"--"),
                byte => text.push(byte),
            }
        }
        let from = (text.len() as u32).saturating_sub(6);
        at_capacities(text, from)
    });
    short.chain(pieces)
}

/// Three slugs of each small length, boot or init, at each small capacity: where the room runs out.
fn each_three_lengths() -> impl Iterator<Item = Vec<Call>> {
    let slugs = texts(b"\x00\x01\x02\x03\x80\x81\x82\x83", 3);
    (0..=18).flat_map(move |capacity| {
        slugs.clone().map(move |slugs| {
            let mut calls = vec![Call::New { capacity }];
            for slug in slugs {
                let text = vec![b'x'; usize::from(slug & 0x7f)];
                calls.push(if slug < 0x80 {
                    Call::InsertStr(text)
                } else {
                    Call::InsertInitArgs(text)
                });
            }
            calls.extend([Call::AsCstring { room: 18 }, Call::Keep]);
            calls.extend([Call::New { capacity: 9 }, Call::IsEqual]);
            calls
        })
    })
}

/// Each list of at most three ends over each small buffer.
fn each_list() -> impl Iterator<Item = Vec<Call>> {
    let lists = texts(b"\x00\x01\x02\x03\xff", 3);
    [&b""[..], b"a", b"a\"", b"a \"", b" "]
        .into_iter()
        .flat_map(move |values| {
            lists.clone().flat_map(move |ends| {
                [&b"k"[..], b" "].map(move |key| {
                    let list = Call::InsertMultiple {
                        key: key.to_vec(),
                        ends: ends.iter().map(|end| (*end).into()).collect(),
                        values: values.to_vec(),
                    };
                    vec![Call::New { capacity: 8 }, list, Call::AsCstring { room: 8 }]
                })
            })
        })
}

/// Every two of some lines, asked whether they are equal: those that can be written, that have init text alone, or a zero byte.
fn each_pair() -> impl Iterator<Item = Vec<Call>> {
    const LINES: [&[u8]; 12] = [
        b"", b"a", b"b", b"a -- b", b"a -- c", b"a--b", b" -- b", b" -- c", b"a\0", b"b\0",
        b"a -- \0", b" -- \0",
    ];
    let made = |text: &[u8], capacity| Call::TryFrom {
        capacity,
        text: text.to_vec(),
    };
    LINES.into_iter().flat_map(move |kept| {
        LINES.map(|other| vec![made(kept, 16), Call::Keep, made(other, 32), Call::IsEqual])
    })
}

/// Sizes at and around every power of two, at capacities around what the text needs.
fn each_device() -> impl Iterator<Item = Vec<Call>> {
    let sizes = (0..64).flat_map(|shift| {
        let power = 1u64 << shift;
        [
            power - 1,
            power,
            power + 1,
            power.wrapping_mul(3),
            power.wrapping_neg(),
        ]
    });
    sizes.flat_map(|size| {
        (28..88).map(move |capacity| {
            let device = Call::AddDevice {
                size,
                address: size.rotate_left(7),
                irq: size as u32,
                id: (size % 3 == 0).then_some((size >> 3) as u32),
            };
            vec![Call::New { capacity }, device, Call::AsCstring { room: 96 }]
        })
    })
}

/// Each short line at each address of each small guest, and at the last addresses.
pub fn line_load() -> impl Iterator<Item = LineLoad> {
    texts(b"aS\0", 3).flat_map(|kinds| {
        let mut text = Vec::new();
        for kind in kinds {
            if kind == b'S' {
                text.extend(b" -- ");
            } else {
                text.push(kind);
            }
        }
        (0..=18).flat_map(move |guest| {
            let text = text.clone();
            let addresses = (0..=20).chain(u64::MAX - 16..=u64::MAX);
            addresses.map(move |address| {
                let text = text.clone();
                LineLoad {
                    map: None,
                    address,
                    guest: examples::guest(guest),
                    calls: vec![Call::TryFrom { capacity: 64, text }],
                }
            })
        })
    })
}
