//! One thing of a boot changed: an address, a size, a limit, a field, a byte.

use crate::examples::put;
use crate::generate::boot::{edges, piece_size};
use crate::generate::damage;
use crate::question::{at, Boot, PAGE_32, PAGE_64, PVH, TREE};
use crate::rng::Rng;

pub fn spoil(rng: &mut Rng, boot: &mut Boot) {
    match rng.below(32) {
        0..=5 => move_piece(rng, boot),
        6..=8 => move_kernel(rng, boot),
        9 | 10 => resize(rng, boot),
        11 | 12 => setup_field(rng, boot),
        13 => line_limit(rng, boot),
        14 | 15 => enter_otherwise(rng, boot),
        16 => spoil_text(rng, boot),
        17..=19 => spoil_row(rng, boot),
        20 => spoil_rows(rng, boot),
        21 | 22 => spoil_tree(rng, boot),
        23 => damage(rng, &mut boot.image),
        24 => spoil_list(rng, boot),
        25 => {
            let length = boot.guest.len() + rng.length(0, 3);
            boot.guest.resize(length.saturating_sub(2), 7);
        }
        26 => empty_ramdisk(rng, boot),
        27 => {
            boot.list[at::FLAGS] |= 2;
            boot.list[at::HIGHMEM] = rng.near(&[0, 16, 100, 1 << 32]);
        }
        28 => spoil_note(rng, boot),
        _ => {
            let edges = edges(boot);
            let index = rng.pick(&[at::LINE, at::RAMDISK, at::DATA]);
            boot.list[index] = rng.pick(&edges);
        }
    }
}

fn is_bzimage(boot: &Boot) -> bool {
    boot.number(at::FORMAT) == 2 && boot.image.len() >= 0x26c
}

/// A piece goes to where another begins or ends, or where it would end with another, or a byte or two off.
fn move_piece(rng: &mut Rng, boot: &mut Boot) {
    let index = rng.pick(&[at::LINE, at::RAMDISK, at::DATA]);
    let size = piece_size(boot, index);
    let mut anchors = edges(boot);
    anchors.push(boot.guest.len() as u64);
    let anchor = rng.near(&anchors);
    boot.list[index] = match rng.below(2) {
        0 => anchor,
        _ => anchor.saturating_sub(size),
    };
}

/// The kernel goes to where another piece begins or ends, or one of its parts does.
fn move_kernel(rng: &mut Rng, boot: &mut Boot) {
    let anchors = edges(boot);
    let anchor = rng.near(&anchors);
    match boot.number(at::FORMAT) {
        1 => {
            let count = usize::from(*boot.image.get(56).unwrap_or(&0));
            let header = 64 + 56 * rng.length(0, count.max(1) - 1);
            if boot.image.len() >= header + 56 {
                put(&mut boot.image, header + 24, &anchor.to_le_bytes());
            }
        }
        2 => {
            boot.list[at::FLAGS] |= 1;
            boot.list[at::OFFSET] = match rng.below(6) {
                0 => rng.near(&[1 << 32, u64::MAX, u64::MAX - 0x200]),
                _ => anchor,
            };
            if rng.one_in(3) && is_bzimage(boot) {
                // a kernel of no bytes, which is accepted anywhere
                let setup = if boot.image[0x1f1] == 0 { 2560 } else { 1024 };
                boot.image.truncate(setup);
            }
        }
        _ if boot.image.len() < 64 => {}
        _ if rng.one_in(3) => {
            // base, text offset and image size around the end of 64 bits
            let base = (2u64 << 20).wrapping_neg();
            boot.list[at::FLAGS] |= 1;
            boot.list[at::OFFSET] = rng.pick(&[base, base, 0, base + 1]);
            let offset = boot.list[at::OFFSET].wrapping_neg();
            put(&mut boot.image, 8, &rng.near(&[offset]).to_le_bytes());
        }
        _ => put(&mut boot.image, 8, &anchor.to_le_bytes()),
    }
}

/// A piece gets a byte more or less.
fn resize(rng: &mut Rng, boot: &mut Boot) {
    let more = rng.one_in(2);
    let changed = |number: u64| match more {
        true => number.wrapping_add(1),
        false => number.wrapping_sub(1),
    };
    match rng.below(3) {
        0 if more => boot.ramdisk.push(rng.byte()),
        0 => drop(boot.ramdisk.pop()),
        1 if more => boot.text.push(b'x'),
        1 => drop(boot.text.pop()),
        _ => {
            let (place, size) = match boot.number(at::FORMAT) {
                1 => (64 + 56 * rng.length(0, 2) + rng.pick(&[32, 40]), 8),
                2 => (0x260, 4),
                _ => (16, 8),
            };
            if let Some(field) = boot.image.get_mut(place..place + size) {
                let mut number = [0; 8];
                number[..size].copy_from_slice(field);
                let number = changed(u64::from_le_bytes(number)).to_le_bytes();
                field.copy_from_slice(&number[..size]);
            }
        }
    }
}

/// A field of the setup header that a boot looks at.
fn setup_field(rng: &mut Rng, boot: &mut Boot) {
    if !is_bzimage(boot) {
        return move_piece(rng, boot);
    }
    let edges = edges(boot);
    let image = &mut boot.image;
    match rng.below(8) {
        0 | 1 => put(image, 0x206, &(0x1ff + rng.below(18) as u16).to_le_bytes()),
        2 => {
            let alignments = [0, 1, 2, 3, 7, 64, 100, 4096, 1 << 24, 1 << 31, u32::MAX];
            put(image, 0x230, &rng.pick(&alignments).to_le_bytes());
        }
        3 => image[0x234] = rng.pick(&[0, 1, 255]),
        4 => {
            let preferred = match rng.below(4) {
                0 => rng.near(&[0, 1 << 32, u64::MAX]),
                _ => rng.near(&edges),
            };
            put(image, 0x258, &preferred.to_le_bytes());
        }
        5 => {
            let size = match rng.below(4) {
                0 => rng.next() as u32,
                1 => rng.pick(&[0, 1, u32::MAX]),
                _ => rng.below(200) as u32,
            };
            put(image, 0x260, &size.to_le_bytes());
        }
        6 => image[0x236] = rng.pick(&[0, 1, 2, 0xfe, 0xff]),
        _ => {
            let last = boot.list[at::RAMDISK] + boot.ramdisk.len() as u64;
            let anchors = [last.wrapping_sub(1), 0, u32::MAX.into()];
            put(image, 0x22c, &(rng.near(&anchors) as u32).to_le_bytes());
            if rng.one_in(4) {
                let size = boot.ramdisk.len() as u64;
                let ends = [0x3800_0000 - size, (1 << 32) - size];
                boot.list[at::RAMDISK] = rng.near(&ends).min(u32::MAX.into());
            }
        }
    }
}

/// The limit that a line has, at and around its length.
fn line_limit(rng: &mut Rng, boot: &mut Boot) {
    let init = if boot.init.is_empty() {
        0
    } else {
        boot.init.len() + 4
    };
    let line = (boot.text.len() + init) as u64;
    let limit = rng.near(&[line, line, 0]);
    if is_bzimage(boot) {
        put(&mut boot.image, 0x238, &(limit as u32).to_le_bytes());
    }
    boot.list[at::HAS_LIMIT] = rng.below(2);
    boot.list[at::LIMIT] = limit;
}

/// Another entry or format, of which some go together.
fn enter_otherwise(rng: &mut Rng, boot: &mut Boot) {
    if rng.one_in(3) {
        boot.list[at::FORMAT] = 1 + rng.below(3);
        return;
    }
    let entry = rng.pick(&[PAGE_32, PAGE_64, PVH, TREE]);
    boot.list[at::ENTRY] = entry;
    // the slices that another entry does not have are empty
    match entry {
        TREE => {
            boot.init.clear();
            boot.rows.clear();
        }
        _ => boot.tree.clear(),
    }
}

/// A zero in the text, or init text alone.
fn spoil_text(rng: &mut Rng, boot: &mut Boot) {
    if rng.one_in(2) && boot.number(at::ENTRY) != TREE {
        boot.init = b"init".to_vec();
        boot.text.clear();
        return;
    }
    let text = match rng.below(3) {
        0 => &mut boot.init,
        _ => &mut boot.text,
    };
    if !text.is_empty() {
        let place = rng.length(0, text.len() - 1);
        text[place] = 0;
    }
}

/// A row that is a byte shorter or longer, begins a byte off, has another type, is missing, or is two.
fn spoil_row(rng: &mut Rng, boot: &mut Boot) {
    let width = if boot.number(at::ENTRY) == PVH { 4 } else { 3 };
    let count = boot.rows.len() / width;
    if count == 0 {
        return move_piece(rng, boot);
    }
    let usable = (0..count).find(|row| boot.rows[row * width + 2] == 1 && rng.one_in(2));
    let row = width * usable.unwrap_or(rng.length(0, count - 1));
    let rows = &mut boot.rows;
    match rng.below(9) {
        0 | 1 => rows[row + 1] = rng.near(&[rows[row + 1]]),
        8 => rows[row + 1] = rng.near(&[rows[row].wrapping_neg(), u64::MAX]),
        2 => rows[row] = rng.near(&[rows[row]]),
        3 => {
            rows[row] = rows[row].wrapping_add(1);
            rows[row + 1] = rows[row + 1].wrapping_sub(1);
        }
        4 | 5 => rows[row + 2] = rng.pick(&[0, 1, 2, 3, 256, 257, 0x8000_0001]),
        6 => drop(rows.drain(row..row + width)),
        _ => {
            let half = rng.below(rows[row + 1].max(1));
            let mut second = rows[row..row + width].to_vec();
            second[0] = second[0].wrapping_add(half);
            second[1] -= half.min(second[1]);
            rows[row + 1] = half;
            rows.extend(second);
        }
    }
}

/// A list of rows that is cut within one, or a number that does not fit its field, or too many rows.
fn spoil_rows(rng: &mut Rng, boot: &mut Boot) {
    let width = if boot.number(at::ENTRY) == PVH { 4 } else { 3 };
    let count = boot.rows.len() / width;
    match rng.below(4) {
        0 => boot
            .rows
            .truncate(boot.rows.len().saturating_sub(rng.length(1, 2))),
        1 => boot.rows.push(0),
        _ if count == 0 || boot.number(at::ENTRY) == TREE => {}
        2 if width == 3 => {
            let next = boot.guest.len() as u64 + 10_000;
            let more = (0..129u64).flat_map(|row| [next + 2 * row, 1, 1]);
            boot.rows.extend(more);
            boot.rows.truncate(3 * rng.length(127, 130));
        }
        _ => {
            let row = width * rng.length(0, count - 1);
            let field = rng.length(2, width - 1);
            boot.rows[row + field] = rng.near(&[1 << 32]);
        }
    }
}

/// The line a byte off, another byte in it, no zero, or past the end.
fn spoil_tree(rng: &mut Rng, boot: &mut Boot) {
    if boot.number(at::ENTRY) != TREE || boot.tree.is_empty() {
        return move_piece(rng, boot);
    }
    let line = boot.number(at::LINE);
    let end = line as usize + boot.text.len();
    match rng.below(5) {
        0 => boot.list[at::LINE] = rng.near(&[line]),
        1 => {
            let length = boot.tree.len() as u64;
            boot.list[at::LINE] = rng.near(&[length, u64::MAX, 1 << 32]);
        }
        2 => boot.tree.truncate(end + rng.length(0, 1)),
        3 => {
            let place = rng.length(0, boot.tree.len() - 1);
            boot.tree[place] ^= 1 << rng.below(8);
        }
        _ if end < boot.tree.len() => boot.tree[end] = 1,
        _ => {}
    }
}

/// What the C call refuses before all else.
fn spoil_list(rng: &mut Rng, boot: &mut Boot) {
    match rng.below(8) {
        0 => boot.list[at::RESERVED] = rng.pick(&[1, 1 << 32, u64::MAX]),
        1 => boot.list.truncate(rng.length(0, 11)),
        2 => boot.list.push(0),
        3 => boot.list[at::ENTRY] = rng.pick(&[0, 5, 6, 1 << 32, (1 << 32) + 1]),
        4 => boot.list[at::FORMAT] = rng.pick(&[0, 4]),
        5 => boot.answers = rng.pick(&[0, 1, 6, 8]),
        _ => {
            let index = rng.pick(&[at::LINE, at::RAMDISK, at::DATA]);
            boot.list[index] = rng.near(&[1 << 32]);
        }
    }
}

/// A ramdisk of no bytes, inside another piece, or anywhere.
fn empty_ramdisk(rng: &mut Rng, boot: &mut Boot) {
    boot.ramdisk.clear();
    let edges = edges(boot);
    let address = match rng.below(3) {
        0 => rng.next(),
        _ => rng.near(&edges).wrapping_add(rng.below(8)),
    };
    boot.list[at::RAMDISK] = match boot.number(at::ENTRY) {
        PAGE_32 | PAGE_64 => address & u64::from(u32::MAX),
        _ => address,
    };
}

/// Another note than the PVH one, or no note header.
fn spoil_note(rng: &mut Rng, boot: &mut Boot) {
    let name = boot.image.windows(4).position(|name| name == b"Xen\0");
    let Some(name) = name else {
        return move_kernel(rng, boot);
    };
    match rng.below(4) {
        0 => boot.image[name - 4] = rng.pick(&[17, 19, 0]),
        1 => boot.image[name] = b'x',
        2 => boot.image[name - 8] = rng.pick(&[0, 3, 5, 8]),
        _ => {
            let count = usize::from(boot.image[56]);
            for header in (0..count).map(|index| 64 + 56 * index) {
                if boot.image[header] == 4 {
                    boot.image[header] = 6;
                }
            }
        }
    }
}
