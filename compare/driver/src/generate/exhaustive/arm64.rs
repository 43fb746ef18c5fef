//! Loads of the small arm64 Image: each byte of its header at each value, each length of image and guest, and its fields and the base at all pairs of
//! their limits.

use crate::examples::{self, put};
use crate::question::Load;

pub fn arm64() -> impl Iterator<Item = Load> {
    each_byte().chain(each_length()).chain(fields())
}

/// Each byte of the image at each value; those of the magic number and the flags decide, and the others are copied.
fn each_byte() -> impl Iterator<Item = Load> {
    let places = 0..examples::small_arm64().image.len();
    places.flat_map(|place| {
        (0..=255).map(move |byte| {
            let mut load = examples::small_arm64();
            load.image[place] = byte;
            load
        })
    })
}

/// Each length of the image over each length of guest memory.
fn each_length() -> impl Iterator<Item = Load> {
    let whole = examples::small_arm64();
    (0..=whole.image.len()).flat_map(|image| {
        (60..90).map(move |guest| {
            let mut load = examples::small_arm64();
            load.image.truncate(image);
            load.guest = examples::guest(guest);
            load
        })
    })
}

/// Base, text offset and image size around every limit that the small image, its guest, 2 MiB and 64 bits set.
fn fields() -> impl Iterator<Item = Load> {
    let bases = [
        0,
        2 << 20,
        (2u64 << 20).wrapping_neg(),
        1 << 63,
        1,
        (2 << 20) - 8,
    ];
    bases.into_iter().flat_map(|base| {
        offsets(base).flat_map(move |offset| {
            let start = base.wrapping_add(offset);
            sizes(start).map(move |size| {
                let mut load = examples::small_arm64();
                load.options.offset = Some(base);
                put(&mut load.image, 8, &offset.to_le_bytes());
                put(&mut load.image, 16, &size.to_le_bytes());
                load
            })
        })
    })
}

fn around(anchors: Vec<u64>) -> impl Iterator<Item = u64> {
    let near = |anchor: u64| [anchor.wrapping_sub(1), anchor, anchor.wrapping_add(1)];
    anchors.into_iter().flat_map(near)
}

fn offsets(base: u64) -> impl Iterator<Item = u64> {
    around(vec![0, 8, 13, 2 << 20, base.wrapping_neg(), 1 << 63])
}

fn sizes(start: u64) -> impl Iterator<Item = u64> {
    around(vec![0, 67, 80, start.wrapping_neg(), 1 << 63])
}
