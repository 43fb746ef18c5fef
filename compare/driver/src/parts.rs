//! The parts of guest memory that the bytes of a question are for, whether they have room there or not.

use crate::over_second::line_of;
use crate::question::{at, Boot, LineLoad, Load, Question, PAGE_32, PAGE_64, PVH, TREE};
use second::fields::{u16_at, u32_at, u64_at};
use second::setup::Setup;

/// An address, and how many bytes are for it.
pub type Part = (u64, u64);

pub fn parts(question: &Question) -> Vec<Part> {
    match question {
        Question::Elf(load) => {
            let segments = segments(load).into_iter();
            segments.map(|segment| segment.to).collect()
        }
        Question::Bzimage(load) => kernel(load).into_iter().collect(),
        Question::Arm64(load) => file(load).into_iter().collect(),
        Question::LineLoad(load) => written_line(load).into_iter().collect(),
        Question::StartWrite(write) => {
            let lists = [
                (write.modules_at, 8 * write.modules.len() as u64),
                (write.ranges_at, 6 * write.ranges.len() as u64),
            ];
            let lists = lists.into_iter().filter(|(_, size)| *size > 0);
            lists.chain([(write.block, 56)]).collect()
        }
        Question::StartCheck(check) => vec![(check.block, 56)],
        Question::Boot(boot) => pieces(boot).into_iter().flatten().collect(),
        Question::Note(_)
        | Question::Line(_)
        | Question::Words(_)
        | Question::PageBuild(_)
        | Question::PageRead(_)
        | Question::Steps(_)
        | Question::Job(_) => vec![],
    }
}

/// The pieces of a boot, each of one part or more or none: kernel, line, ramdisk and boot data.
pub fn pieces(boot: &Boot) -> [Vec<Part>; 4] {
    let size = boot.text.len() as u64 + 1;
    let init = boot.init.len() as u64;
    let init = if init > 0 { init + 4 } else { 0 };
    let line = (boot.number(at::LINE), size + init);
    let ramdisk = (boot.number(at::RAMDISK), boot.ramdisk.len() as u64);
    let rows = boot.rows.len() as u64;
    let data = match boot.number(at::ENTRY) {
        PAGE_32 | PAGE_64 => 4096,
        PVH => 56 + 32 * u64::from(ramdisk.1 > 0) + 6 * rows,
        _ => boot.tree.len() as u64,
    };
    let has_line = boot.number(at::ENTRY) != TREE;
    [
        boot_kernel(boot),
        has_line.then_some(line).into_iter().collect(),
        vec![ramdisk],
        vec![(boot.number(at::DATA), data)],
    ]
}

/// What a boot's kernel writes, and the memory that it takes.
fn boot_kernel(boot: &Boot) -> Vec<Part> {
    let (load, image) = (boot.load(), &boot.image);
    match boot.number(at::FORMAT) {
        1 => {
            let taken = second::elf::taken(image, load.options.offset);
            let part =
                |span: std::ops::Range<u128>| (span.start as u64, (span.end - span.start) as u64);
            taken.into_iter().map(part).collect()
        }
        2 => {
            let Some(header) = image.get(0x1f1..0x1f1 + 123) else {
                return vec![];
            };
            let setup = Setup(header.try_into().expect("a header has 123 bytes"));
            let taken = setup.taken(kernel_address(&load).unwrap_or(0));
            let size = (taken.end - taken.start) as u64;
            let taken = (size > 0).then_some((taken.start as u64, size));
            kernel(&load).into_iter().chain(taken).collect()
        }
        _ => {
            let size = image.get(16..24).map(|size| u64_at(size, 0));
            let file = file(&load).into_iter();
            let parts = file.flat_map(|part| [Some(part), size.map(|size| (part.0, size))]);
            parts.flatten().collect()
        }
    }
}

/// A loadable segment with bytes in the file.
pub struct Segment {
    /// Where its bytes stand in the image.
    pub place: u64,
    pub to: Part,
}

/// The segments that the program headers have which stand in the image.
pub fn segments(load: &Load) -> Vec<Segment> {
    let image = &load.image;
    if image.len() < 64 {
        return vec![];
    }
    let Some(table) = image.get(u64_at(image, 32) as usize..) else {
        return vec![];
    };
    let headers = table.chunks_exact(56).take(usize::from(u16_at(image, 56)));
    let loadable = headers.filter(|header| u32_at(header, 0) == 1 && u64_at(header, 32) > 0);
    let moved = load.options.offset.unwrap_or(0);
    let segment = |header: &[u8]| Segment {
        place: u64_at(header, 8),
        to: (u64_at(header, 24).wrapping_add(moved), u64_at(header, 32)),
    };
    loadable.map(segment).collect()
}

/// What stands behind the setup of a bzImage.
fn kernel(load: &Load) -> Option<Part> {
    let sectors = match *load.image.get(0x1f1)? {
        0 => 4,
        sectors => u64::from(sectors),
    };
    let size = (load.image.len() as u64).checked_sub((sectors + 1) * 512)?;
    Some((kernel_address(load)?, size))
}

/// Where a bzImage's kernel goes.
pub fn kernel_address(load: &Load) -> Option<u64> {
    let start = load.image.get(0x214..0x218)?;
    Some(load.options.offset.unwrap_or(u32_at(start, 0).into()))
}

/// The file of an arm64 Image.
fn file(load: &Load) -> Option<Part> {
    let text_offset = u64_at(load.image.get(8..16)?, 0);
    let base = load.options.offset.unwrap_or(0);
    Some((base.wrapping_add(text_offset), load.image.len() as u64))
}

/// The line with its zero, if it can be written.
pub fn written_line(load: &LineLoad) -> Option<Part> {
    let text = line_of(&load.calls).written().ok()?;
    Some((load.address, text.len() as u64))
}

#[cfg(test)]
mod tests {
    use super::*;
    use crate::examples;
    use crate::question::Call;

    #[test]
    fn every_part_of_the_small_questions_is_found() {
        let mut load = examples::small_elf();
        assert_eq!(parts(&Question::Elf(load.clone())), [(16, 3)]);
        load.options.offset = Some(4);
        assert_eq!(parts(&Question::Elf(load)), [(20, 3)]);
        let two = parts(&Question::Elf(examples::elf_with_notes()));
        assert_eq!(two, [(16, 3), (17, 2)]);
        let kernel = parts(&Question::Bzimage(examples::small_bzimage()));
        assert_eq!(kernel, [(4, 3)]);
        let text = b"ab".to_vec();
        let line = LineLoad {
            address: 7,
            calls: vec![Call::TryFrom { capacity: 9, text }],
            ..LineLoad::default()
        };
        assert_eq!(parts(&Question::LineLoad(line)), [(7, 3)]);
    }

    #[test]
    fn an_image_that_is_cut_short_has_fewer_parts() {
        for length in 0..120 {
            let mut load = examples::small_elf();
            load.image.truncate(length);
            assert!(parts(&Question::Elf(load)).is_empty());
        }
        let mut load = examples::small_bzimage();
        load.image.truncate(1023);
        assert!(parts(&Question::Bzimage(load)).is_empty());
    }
}
