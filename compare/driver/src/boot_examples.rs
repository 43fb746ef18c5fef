//! One small boot of each kind, with bytes between all of its pieces: good boots to change.

use crate::examples::{guest, put, small_arm64, small_bzimage};
use crate::generate::elf_image;
use crate::question::{at, Boot, PAGE_32, PAGE_64, PVH, TREE};

/// How many numbers an answer has.
pub const ANSWERS: u32 = 7;

/// A bzImage of protocol 2.15: three bytes for 40, and 20 bytes of memory at 60. Line at 10, ramdisk at 100, page at
/// 200.
pub fn page_32() -> Boot {
    let mut image = small_bzimage().image;
    image[0x214] = 40;
    put(&mut image, 0x22c, &0x37ff_ffffu32.to_le_bytes());
    put(&mut image, 0x230, &20u32.to_le_bytes());
    image[0x234] = 1;
    image[0x236] = 1;
    put(&mut image, 0x238, &2047u32.to_le_bytes());
    put(&mut image, 0x258, &41u64.to_le_bytes());
    put(&mut image, 0x260, &20u32.to_le_bytes());
    Boot {
        map: None,
        list: vec![2, 0, 5, 5, PAGE_32, 0, 1, 10, 100, 200, 77, 0],
        answers: ANSWERS,
        image,
        guest: guest(4320),
        text: b"a=b c".to_vec(),
        init: b"d".to_vec(),
        ramdisk: vec![1, 2, 3, 4, 5, 6, 7],
        rows: vec![0, 200, 1, 4400, 50, 2],
        tree: vec![],
    }
}

pub fn page_64() -> Boot {
    let mut boot = page_32();
    boot.list[at::ENTRY] = PAGE_64;
    boot
}

/// An ELF image: three bytes for 16 with 8 bytes of memory, and 4 bytes of memory only at 30. Line at 40, ramdisk at
/// 60, block at 80 with its lists up to 216.
pub fn pvh() -> Boot {
    let headers = [(1, 20, 16, 3, 8), (1, 0, 30, 0, 4), (4, 0, 0, 20, 20)];
    let body = b"\x04\0\0\0\x04\0\0\0\x12\0\0\0Xen\0\x11\0\0\0\xaa\xbb\xcc";
    Boot {
        map: None,
        list: vec![1, 0, 5, 5, PVH, 0, 1, 40, 60, 80, 0x0102_0304_0506_0708, 0],
        answers: ANSWERS,
        image: elf_image(&headers, body),
        guest: guest(240),
        text: b"a=b c".to_vec(),
        init: b"d".to_vec(),
        ramdisk: vec![1, 2, 3, 4, 5, 6, 7],
        rows: vec![0, 80, 1, 0, 80, 200, 2, 0],
        tree: vec![],
    }
}

/// The same image with a page at 80.
pub fn page_of_elf() -> Boot {
    let mut boot = pvh();
    boot.list[at::ENTRY] = PAGE_64;
    boot.guest = guest(4200);
    boot.rows = vec![0, 80, 1, 80, 5000, 2];
    boot
}

/// The same again, moved there by an offset of 10.
pub fn moved_elf() -> Boot {
    let mut boot = page_of_elf();
    (boot.list[at::FLAGS], boot.list[at::OFFSET]) = (1, 10);
    for place in [24, 64 + 24, 64 + 56 + 24] {
        boot.image[place] -= 10;
    }
    boot
}

/// An arm64 Image of 67 bytes for 8, which takes 70. Ramdisk at 90, tree at 110.
pub fn tree() -> Boot {
    let mut image = small_arm64().image;
    put(&mut image, 16, &70u64.to_le_bytes());
    Boot {
        map: None,
        list: vec![3, 0, 5, 5, TREE, 0, 1, 3, 90, 110, 77, 0],
        answers: ANSWERS,
        image,
        guest: guest(140),
        text: b"a=b c".to_vec(),
        init: vec![],
        ramdisk: vec![1, 2, 3, 4, 5, 6, 7],
        rows: vec![],
        tree: b"\xd0\x0d\xfea=b c\0\xee\xee".to_vec(),
    }
}

/// One of each.
pub fn all() -> [Boot; 6] {
    [
        page_32(),
        page_64(),
        page_of_elf(),
        moved_elf(),
        pvh(),
        tree(),
    ]
}

#[cfg(test)]
mod tests {
    use super::*;
    use crate::over_second;
    use crate::question::Question;

    #[test]
    fn each_is_accepted() {
        let lines = all().map(|boot| {
            let question = Question::Boot(boot);
            let line = over_second::answer(&question).line(question.guest());
            line.split(" guest").next().unwrap().to_string()
        });
        let wanted = [
            "boot ok 40 43 pvh ignored entry 40",
            "boot ok 40 43 pvh ignored entry 552",
            "boot ok 16 34 pvh at 17 note 248 4 entry 16",
            "boot ok 16 34 pvh ignored entry 16",
            "boot ok 16 34 pvh at 17 note 248 4 entry 17",
            "boot ok 8 78 pvh ignored entry 8",
        ];
        assert_eq!(lines, wanted);
    }
}
