//! Boots with every field of a setup header that a boot looks at, at its limits and in each protocol version, and with
//! the limits of a line.

use crate::boot_examples::{all, page_32, page_64, page_of_elf, pvh, tree};
use crate::examples::put;
use crate::generate::exhaustive::boot::{around, with};
use crate::question::{at, Boot, PVH, TREE};

pub fn fields() -> impl Iterator<Item = Boot> {
    versions().chain(runtime()).chain(limits())
}

/// Each version with each field that begins with some version, around its limit.
fn versions() -> impl Iterator<Item = Boot> {
    let versions = (0x1ff..=0x211u16).chain([0x2ff, 0x300, 0xffff]);
    versions.flat_map(|version| {
        let mut all = Vec::new();
        for boot in [page_32(), page_64()] {
            let boot = with(&boot, |boot| {
                put(&mut boot.image, 0x206, &version.to_le_bytes());
            });
            let last = boot.list[at::RAMDISK] as u32 + boot.ramdisk.len() as u32 - 1;
            let line = (boot.text.len() + 4 + boot.init.len()) as u32;
            for (field, numbers) in [
                (0x22c, [last - 1, last, last + 1, 0, 1 << 16, u32::MAX]),
                (0x238, [line - 1, line, line + 1, 0, 1 << 16, u32::MAX]),
                (0x236, [0, 1, 2, 0x0100, 0xfffe, 0xffff]),
                (0x260, [0, 40, 41, 4261, 1 << 16, u32::MAX]),
            ] {
                for number in numbers {
                    let size = if field == 0x236 { 2 } else { 4 };
                    all.push(with(&boot, |boot| {
                        put(&mut boot.image, field, &number.to_le_bytes()[..size]);
                    }));
                }
            }
            // the last ramdisk that an old kernel reaches, and one after it
            for address in around(0x3800_0000 - boot.ramdisk.len() as u64) {
                for highest in [u32::MAX, 0x37ff_fffe, 0x3800_0000] {
                    all.push(with(&boot, |boot| {
                        boot.list[at::RAMDISK] = address;
                        put(&mut boot.image, 0x22c, &highest.to_le_bytes());
                    }));
                }
            }
            // and the longest line
            for length in 254..=257 {
                for longest in [0u32, 255, 256] {
                    all.push(with(&boot, |boot| {
                        boot.text = vec![b'a'; length];
                        boot.init.clear();
                        boot.list[at::LINE] = 4500;
                        boot.guest.resize(5000, 7);
                        boot.rows = vec![0, 200, 1, 4400, 1000, 1];
                        put(&mut boot.image, 0x238, &longest.to_le_bytes());
                    }));
                }
            }
        }
        all
    })
}

/// Load address, preferred address, alignment and whether the kernel can be moved, each at its limits.
fn runtime() -> impl Iterator<Item = Boot> {
    const PREFERRED: [u64; 11] = [
        0,
        1,
        39,
        40,
        41,
        60,
        61,
        1 << 32,
        u64::MAX - 20,
        u64::MAX - 19,
        u64::MAX,
    ];
    const ALIGNMENTS: [u32; 11] = [0, 1, 2, 3, 8, 20, 30, 60, 64, 1 << 31, u32::MAX];
    const SIZES: [u32; 7] = [0, 1, 20, 40, 41, 4261, u32::MAX];
    let fields = PREFERRED.into_iter().flat_map(|preferred| {
        let fields = ALIGNMENTS.into_iter();
        fields.flat_map(move |alignment| SIZES.map(move |size| (preferred, alignment, size)))
    });
    fields.flat_map(|(preferred, alignment, size)| {
        [(40u64, 0), (40, 1), (41, 255), (60, 1)].map(|(load, relocatable)| {
            with(&page_32(), |boot| {
                boot.list[at::FLAGS] = 1;
                boot.list[at::OFFSET] = load;
                boot.image[0x234] = relocatable;
                put(&mut boot.image, 0x230, &alignment.to_le_bytes());
                put(&mut boot.image, 0x258, &preferred.to_le_bytes());
                put(&mut boot.image, 0x260, &size.to_le_bytes());
            })
        })
    })
}

/// The caller's limit around the length of a line, and Linux's own if there is none; a kernel of no bytes around the
/// ends of 32 and of 64 bits.
fn limits() -> impl Iterator<Item = Boot> {
    let given = all().into_iter().flat_map(|boot| {
        let init = if boot.init.is_empty() {
            0
        } else {
            4 + boot.init.len()
        };
        let line = (boot.text.len() + init) as u64;
        let limits = around(line).chain([0, 255, 2047, 1 << 32, u64::MAX]);
        limits.flat_map(move |limit| {
            [0, 1].map(|has_limit| {
                with(&boot, |boot| {
                    boot.list[at::HAS_LIMIT] = has_limit;
                    boot.list[at::LIMIT] = limit;
                })
            })
        })
    });
    let long = [page_32(), page_of_elf(), pvh(), tree()].into_iter();
    let long = long.flat_map(|boot| {
        (2045..=2049usize).flat_map(move |length| {
            let limits = [(0, 0), (1, 2047), (1, 2048)];
            limits.map(|(has_limit, limit)| {
                with(&boot, |boot| long_line(boot, length, has_limit, limit))
            })
        })
    });
    let far = [page_32(), page_64()].into_iter().flat_map(|boot| {
        let loads = around(1 << 32).chain(around(0x200u64.wrapping_neg()));
        loads.chain([u64::MAX]).map(move |load| {
            with(&boot, |boot| {
                boot.image.truncate(1024);
                boot.image[0x234] = 0;
                boot.list[at::FLAGS] = 1;
                boot.list[at::OFFSET] = load;
            })
        })
    });
    given.chain(long).chain(far)
}

/// A line of so many bytes after all other pieces, or in the tree.
fn long_line(boot: &mut Boot, length: usize, has_limit: u64, limit: u64) {
    (boot.list[at::HAS_LIMIT], boot.list[at::LIMIT]) = (has_limit, limit);
    boot.init.clear();
    boot.text = vec![b'l'; length];
    if boot.list[at::ENTRY] == TREE {
        boot.tree = [&boot.tree[..3], &boot.text, &[0]].concat();
    } else {
        boot.list[at::LINE] = 4400;
        let width = if boot.list[at::ENTRY] == PVH { 4 } else { 3 };
        let row = [4400, 5000, 1, 0];
        boot.rows.truncate(width);
        boot.rows.extend(&row[..width]);
    }
    boot.guest.resize(6600, 7);
}
