//! Walks over two notes.

use crate::examples;
use crate::question::Walk;

/// One note with all sizes and names near the limits, then the PVH note; with all lengths of image and segment.
pub fn note() -> impl Iterator<Item = Walk> {
    const SIZES: [u32; 9] = [0, 1, 3, 4, 5, 8, 0xffff_fffc, 0xffff_fffd, 0xffff_ffff];
    const NAMES: [&[u8; 4]; 4] = [b"Xen\0", b"Xen\x01", b"yen\0", b"\0\0\0\0"];
    let headers = SIZES.into_iter().flat_map(|name_size| {
        SIZES.into_iter().flat_map(move |descriptor_size| {
            [17u32, 18, 19].map(move |kind| [name_size, descriptor_size, kind])
        })
    });
    headers.flat_map(|header| {
        NAMES.into_iter().flat_map(move |name| {
            let mut image: Vec<u8> = header.iter().flat_map(|n| n.to_le_bytes()).collect();
            image.extend(name);
            image.extend([1, 2, 3, 4]);
            image.extend(examples::pvh_note());
            each_walk(image)
        })
    })
}

fn each_walk(image: Vec<u8>) -> impl Iterator<Item = Walk> {
    const SIZES: [u64; 10] = [0, 1, 12, 13, 16, 19, 20, 21, 40, u64::MAX];
    (0..=image.len()).flat_map(move |length| {
        let image = image[..length].to_vec();
        SIZES.map(|size| {
            let image = image.clone();
            Walk {
                place: 0,
                size,
                image,
            }
        })
    })
}
