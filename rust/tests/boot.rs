//! Whole boots: every piece in guest memory, the addresses that are placed, and each refusal with its pieces.

mod images;

use images::{arm64_image, fresh, fresh_with, pvh_note, BzImageFile, ElfImage, LOADABLE, NOTE};
use rekusoyen::boot::{
    has_room, line_check, place, place_high, put, Boot, Piece, Pvh, Span, Tree, ZeroPage,
};
use rekusoyen::boot_page;
use rekusoyen::cmdline::Cmdline;
use rekusoyen::loader::bootparam::boot_params;
use rekusoyen::loader::Format;
use rekusoyen::{start_info, GuestAddress, Map, Refusal};

const GUEST: usize = 0x10000;
const KERNEL: u64 = 0x8000;
const MEMORY: u64 = 0x100;
const BYTES: &[u8] = b"the kernel's bytes";
const TEXT: &[u8] = b"console=ttyS0 quiet";
const LINE: &[u8] = b"console=ttyS0 quiet\0";
const DISK: &[u8] = b"a ramdisk";

const fn at(address: u64) -> GuestAddress {
    GuestAddress(address)
}

fn rows() -> Vec<(GuestAddress, u64, u32)> {
    vec![(at(0), GUEST as u64, 1)]
}

/// A bzImage of protocol 2.15 with a 64-bit entry, which unpacks itself where it is loaded.
fn bzimage() -> Vec<u8> {
    let mut image = BzImageFile::loaded_at(KERNEL as u32, BYTES).bytes();
    for (place, bytes) in [
        (0x22c, &0x7fff_ffffu32.to_le_bytes()[..]), // initrd_addr_max
        (0x230, &0x1000u32.to_le_bytes()),          // kernel_alignment
        (0x234, &[1]),                              // relocatable_kernel
        (0x236, &[1, 0]),                           // xloadflags
        (0x238, &2047u32.to_le_bytes()),            // cmdline_size
        (0x258, &KERNEL.to_le_bytes()),             // pref_address
        (0x260, &(MEMORY as u32).to_le_bytes()),    // init_size
    ] {
        image[place..place + bytes.len()].copy_from_slice(bytes);
    }
    image
}

fn with(mut image: Vec<u8>, place: usize, bytes: &[u8]) -> Vec<u8> {
    image[place..place + bytes.len()].copy_from_slice(bytes);
    image
}

/// An ELF image with a PVH entry 8 bytes after its start.
fn elf() -> Vec<u8> {
    ElfImage::entered_at(KERNEL)
        .with(LOADABLE, KERNEL, BYTES)
        .edited(|header| header.p_memsz = MEMORY)
        .with(NOTE, 0, &pvh_note(KERNEL as u32 + 8))
        .bytes()
}

fn arm64() -> Vec<u8> {
    arm64_image(KERNEL, MEMORY, BYTES)
}

/// A blob with the line at 5.
fn blob() -> Vec<u8> {
    [b"tree:", LINE, b"end"].concat()
}

fn span(address: u64, size: usize) -> Span {
    Span::new(at(address), size as u64)
}

/// Boots into fresh memory; its plan says the same.
fn booted(boot: &Boot) -> (rekusoyen::boot::Booted, Vec<u8>) {
    let mut guest = fresh(GUEST);
    let map = Map::whole(GUEST);
    let booted = boot.load(&mut guest, &map).expect("it is accepted");
    assert_eq!(boot.plan(&map).as_ref(), Ok(&booted));
    (booted, guest)
}

/// A refusal by its name, its pieces and its text; nothing is written, and the plan refuses alike.
fn refused(boot: &Boot, refusal: Refusal, pieces: &[Piece], text: &str) {
    let mut guest = fresh(GUEST);
    let map = Map::whole(GUEST);
    let error = boot.load(&mut guest, &map).expect_err("it is refused");
    assert_eq!(error.refusal(), Some(refusal), "{error}");
    assert_eq!(error.number(), Some(refusal.number()));
    assert_eq!(error.pieces(), pieces, "{error}");
    assert_eq!(error.to_string(), format!("Boot: {text}"));
    assert_eq!(guest, fresh(GUEST));
    assert_eq!(boot.plan(&map), Err(error));
}

#[test]
fn a_bzimage_is_booted_by_zero_page() {
    let (image, rows) = (bzimage(), rows());
    let boot = Boot::new(&image).text(TEXT).ramdisk(DISK).rows(&rows);
    let (given, guest) = booted(&boot.clone().zero_page(ZeroPage {
        is_64_bit: false,
        page: Some(at(0x3000)),
        line: Some(at(0x100)),
        ramdisk: Some(at(0x200)),
    }));
    assert_eq!(given.entry, at(KERNEL));
    assert_eq!(given.kernel.kernel_end, KERNEL + BYTES.len() as u64);
    assert_eq!(given.line, span(0x100, LINE.len()));
    assert_eq!(given.ramdisk, span(0x200, DISK.len()));
    assert_eq!(given.boot_data, span(0x3000, 4096));
    assert_eq!(given.boot_data_is, Piece::ZeroPage);
    let kernel = [span(KERNEL, BYTES.len()), span(KERNEL, MEMORY as usize)];
    assert_eq!(given.kernel_memory, kernel);

    let page = boot_page::read(&guest[0x3000..0x4000]).expect("a page");
    assert_eq!(page.addresses.command_line, 0x100);
    assert_eq!(page.addresses.ramdisk, 0x200);
    assert_eq!(page.addresses.ramdisk_size, DISK.len() as u32);
    assert_eq!(page.rows.len(), 1);
    let written: [(usize, &[u8]); 4] = [
        (KERNEL as usize, BYTES),
        (0x100, LINE),
        (0x200, DISK),
        (0x3000, &guest[0x3000..0x4000]),
    ];
    assert_eq!(guest, fresh_with(GUEST, &written));

    // the 64-bit entry
    let (given, _) = booted(&boot.zero_page(ZeroPage {
        is_64_bit: true,
        ..ZeroPage::default()
    }));
    assert_eq!(given.entry, at(KERNEL + 0x200));
}

#[test]
fn an_elf_image_is_booted_by_its_64_bit_entry() {
    let (image, rows) = (elf(), rows());
    let page = ZeroPage {
        is_64_bit: true,
        ..ZeroPage::default()
    };
    let boot = Boot::new(&image).text(TEXT).rows(&rows).zero_page(page);
    let (given, guest) = booted(&boot);
    assert_eq!(given.entry, at(KERNEL));
    let page: [u8; 4096] = guest[0x1000..0x2000].try_into().expect("a page");
    let params = boot_params::from(page);
    assert_eq!({ params.hdr.boot_flag }, 0xaa55);
    assert_eq!({ params.hdr.header }, u32::from_le_bytes(*b"HdrS"));
    assert_eq!({ params.hdr.kernel_alignment }, 16 << 20);
    assert_eq!({ params.hdr.cmd_line_ptr }, 0x2000);
}

#[test]
fn an_elf_image_is_booted_by_pvh() {
    let (image, rows) = (elf(), rows());
    let line = Cmdline::try_from("quiet -- single", 100).expect("a line");
    let boot = Boot::new(&image).line(&line).ramdisk(DISK).rows(&rows);
    let (given, guest) = booted(&boot.clone().pvh(Pvh {
        block: Some(at(0x3000)),
        line: Some(at(0x100)),
        ramdisk: Some(at(0x200)),
        rsdp: at(0xe0000),
    }));
    assert_eq!(given.entry, at(KERNEL + 8));
    assert_eq!(given.boot_data, span(0x3000, 56 + 32 + 24));
    assert_eq!(given.boot_data_is, Piece::StartBlock);
    assert!(given.pvh_note.is_some());
    let found = start_info::check(&guest, &Map::whole(GUEST), at(0x3000)).expect("a block");
    assert_eq!(found.block.cmdline_paddr, 0x100);
    assert_eq!(found.block.rsdp_paddr, 0xe0000);
    assert_eq!(
        (found.modules[0].paddr, found.modules[0].size),
        (0x200, DISK.len() as u64)
    );
    assert_eq!(found.memory_map.len(), 1);
    assert_eq!(&guest[0x100..0x110], b"quiet -- single\0");
    assert_eq!(guest[0x200..][..DISK.len()], *DISK);

    // without an entry that is named, and without a ramdisk
    let (given, guest) = booted(&Boot::new(&image).line(&line).rows(&rows));
    assert_eq!(given.boot_data, span(0x1000, 56 + 24));
    assert_eq!(given.line, span(0x1050, 16));
    let found = start_info::check(&guest, &Map::whole(GUEST), at(0x1000)).expect("a block");
    assert_eq!(found.modules, []);
}

#[test]
fn an_arm64_image_is_booted_with_a_device_tree() {
    let (image, blob) = (arm64(), blob());
    let boot = Boot::new(&image).text(TEXT).ramdisk(DISK);
    let tree = Tree {
        blob: &blob,
        ..Tree::default()
    };
    let (given, guest) = booted(&boot.clone().tree(tree));
    assert_eq!(given.entry, at(KERNEL));
    assert_eq!(given.boot_data, span(0x1000, blob.len()));
    assert_eq!(given.boot_data_is, Piece::Tree);
    assert_eq!(given.line, span(0x1005, LINE.len()));
    assert_eq!(given.ramdisk, span(0xf000, DISK.len()));
    let written: [(usize, &[u8]); 3] = [(KERNEL as usize, &image), (0x1000, &blob), (0xf000, DISK)];
    assert_eq!(guest, fresh_with(GUEST, &written));

    // both texts of a line are one text in the tree
    let line = Cmdline::try_from("quiet -- single", 100).expect("a line");
    let whole = b"quiet -- single\0";
    let tree = Tree {
        blob: whole,
        ..Tree::default()
    };
    let (given, _) = booted(&Boot::new(&image).line(&line).tree(tree));
    assert_eq!(given.line, span(0x1000, whole.len()));
}

#[test]
fn what_has_no_address_is_placed_in_usable_rows() {
    let image = bzimage();
    let rows = [
        (at(0), 0x1800, 1),
        (at(0x1800), 0x800, 2),
        (at(0x2000), 0xd000, 1),
        (at(0xf000), 0x1000, 2),
    ];
    let boot = Boot::new(&image).text(TEXT).ramdisk(DISK).rows(&rows);
    let (given, _) = booted(&boot);
    // the first row has no whole page from 1000 hex on, but room for a line
    assert_eq!(given.boot_data, span(0x2000, 4096));
    assert_eq!(given.line, span(0x1000, LINE.len()));
    assert_eq!(given.ramdisk, span(0xe000, DISK.len()));

    // apart from what is given, and from what is there
    let page = ZeroPage {
        line: Some(at(0x2008)),
        ..ZeroPage::default()
    };
    let taken = [span(0xe000, 1), span(0x3000, 1)];
    let (given, _) = booted(&boot.clone().zero_page(page).taken(&taken));
    assert_eq!(given.boot_data, span(0x4000, 4096));
    assert_eq!(given.line, span(0x2008, LINE.len()));
    assert_eq!(given.ramdisk, span(0xd000, DISK.len()));

    // below initrd_addr_max
    let low = with(bzimage(), 0x22c, &0xbfffu32.to_le_bytes());
    let boot = Boot::new(&low).text(TEXT).ramdisk(DISK).rows(&rows);
    assert_eq!(booted(&boot).0.ramdisk, span(0xb000, DISK.len()));
}

#[test]
fn a_piece_that_fits_nowhere_is_named() {
    let (image, disk) = (bzimage(), vec![7; 0x7001]);
    let rows = rows();
    let boot = Boot::new(&image).ramdisk(&disk).rows(&rows);
    let text = "the ramdisk of 28673 bytes fits nowhere in rows of type 1 of the memory map beside the others";
    refused(&boot, Refusal::NoRoom, &[Piece::Ramdisk], text);
    let text = "the zero page of 4096 bytes fits nowhere in rows of type 1 of the memory map beside the others";
    refused(&boot.rows(&[]), Refusal::NoRoom, &[Piece::ZeroPage], text);
}

#[test]
fn a_refused_load_of_the_kernel_is_that_of_the_boot() {
    let image = bzimage();
    let short = &image[..1000];
    let text = "the image is shorter than its setup sectors";
    refused(
        &Boot::new(short),
        Refusal::Underflow,
        &[Piece::Kernel],
        text,
    );
    let text = "the image is neither an ELF image nor a bzImage nor an arm64 Image";
    refused(
        &Boot::new(b"none"),
        Refusal::BadList,
        &[Piece::Kernel],
        text,
    );
    let text = "the image has no bzImage's setup header";
    let boot = Boot::new(b"none").format(Format::BzImage);
    refused(&boot, Refusal::InvalidBzImage, &[Piece::Kernel], text);
    let boot = Boot::new(&image).highmem_start(at(KERNEL + 1));
    let text = "the kernel's own load address is below the start of high memory";
    refused(
        &boot,
        Refusal::InvalidKernelStartAddress,
        &[Piece::Kernel],
        text,
    );
}

#[test]
fn entries_are_checked() {
    use Refusal::{LineNotInTree, No64BitEntry, NoPvhEntry, WrongEntry};
    let (bzimage, elf, arm64, blob) = (bzimage(), elf(), arm64(), blob());
    let (rows, kernel) = (rows(), [Piece::Kernel]);
    let (page, long) = (
        ZeroPage::default(),
        ZeroPage {
            is_64_bit: true,
            ..ZeroPage::default()
        },
    );
    let boot = |image| Boot::new(image).rows(&rows);
    let text = "an ELF image is not entered by zero page in 32-bit mode";
    refused(&boot(&elf).zero_page(page), WrongEntry, &kernel, text);
    let text = "an arm64 Image is not entered by zero page in 64-bit mode";
    refused(&boot(&arm64).zero_page(long), WrongEntry, &kernel, text);
    let tree = Tree {
        blob: &blob,
        ..Tree::default()
    };
    let text = "a bzImage is not entered with a device tree";
    refused(&boot(&bzimage).tree(tree), WrongEntry, &kernel, text);
    let short = with(bzimage.clone(), 0x236, &[0xfe]);
    let text = "the bzImage has no 64-bit entry";
    refused(&boot(&short).zero_page(long), No64BitEntry, &kernel, text);
    let text = "the image has no PVH entry, and the boot is a PVH boot";
    refused(&boot(&elf).offset(at(0)), NoPvhEntry, &kernel, text);
    let text = "the device tree does not hold the line and its zero at the offset that was given";
    let both = [Piece::Line, Piece::Tree];
    refused(
        &boot(&arm64).text(b"ro").tree(tree),
        LineNotInTree,
        &both,
        text,
    );
    let elsewhere = Tree {
        line_offset: Some(4),
        ..tree
    };
    refused(
        &boot(&arm64).text(TEXT).tree(elsewhere),
        LineNotInTree,
        &both,
        text,
    );
    let init = Cmdline::try_from(" -- single", 100).expect("a line");
    let text = "the line cannot be written: it has init arguments alone, or a zero byte";
    for boot in [boot(&arm64).tree(tree), boot(&bzimage), boot(&elf)] {
        refused(
            &boot.line(&init),
            Refusal::InvalidCommandLine,
            &[Piece::Line],
            text,
        );
    }
}

#[test]
fn addresses_of_32_bits_are_checked() {
    let (image, elf, rows) = (bzimage(), elf(), rows());
    let page = ZeroPage {
        line: Some(at(1 << 32)),
        ..ZeroPage::default()
    };
    let text = "line, ramdisk and zero page must be at an address below 4 GiB";
    let boot = Boot::new(&image).rows(&rows).zero_page(page);
    refused(&boot, Refusal::BadList, &[Piece::ZeroPage], text);
    let pvh = Pvh {
        block: Some(at(1 << 32)),
        ..Pvh::default()
    };
    let text = "the start block must be at an address below 4 GiB";
    let boot = Boot::new(&elf).rows(&rows).pvh(pvh);
    refused(&boot, Refusal::BadList, &[Piece::StartBlock], text);
}

#[test]
fn a_line_is_no_longer_than_the_kernel_takes() {
    let (rows, long) = (rows(), vec![b'x'; 2048]);
    let (bzimage, elf) = (bzimage(), elf());
    for image in [&bzimage, &elf] {
        let boot = Boot::new(image).rows(&rows);
        booted(&boot.clone().text(&long[1..]));
        let text = "the line has 2048 bytes, and the kernel takes 2047";
        refused(
            &boot.text(&long),
            Refusal::LineTooLong,
            &[Piece::Line],
            text,
        );
    }
    booted(&Boot::new(&elf).rows(&rows).text(&long).limit(2048));
    let boot = Boot::new(&elf).rows(&rows).text(TEXT).limit(5);
    let text = "the line has 19 bytes, and the kernel takes 5";
    refused(&boot, Refusal::LineTooLong, &[Piece::Line], text);
}

/// A boot by zero page with the line, the ramdisk and the page at these addresses.
fn refused_at(line: u64, ramdisk: u64, page: u64, refusal: Refusal, pieces: &[Piece], text: &str) {
    let (image, rows) = (bzimage(), rows());
    let boot = Boot::new(&image).text(TEXT).ramdisk(DISK).rows(&rows);
    let boot = boot.zero_page(ZeroPage {
        is_64_bit: false,
        page: Some(at(page)),
        line: Some(at(line)),
        ramdisk: Some(at(ramdisk)),
    });
    refused(&boot, refusal, pieces, text);
}

#[test]
fn pieces_have_room() {
    use Refusal::*;
    refused_at(
        0xfff0,
        0x200,
        0x3000,
        CommandLineOverflow,
        &[Piece::Line],
        "the line at 0xfff0 to 0x10004 is not in one range of guest memory",
    );
    refused_at(
        0x100,
        0xfffc,
        0x3000,
        RamdiskOutside,
        &[Piece::Ramdisk],
        "the ramdisk at 0xfffc to 0x10005 is not in one range of guest memory",
    );
    refused_at(
        0x100,
        0x200,
        0xf001,
        BootDataOutside,
        &[Piece::ZeroPage],
        "the zero page at 0xf001 to 0x10001 is not in one range of guest memory",
    );
    refused_at(
        0x100,
        0x7fff_fff8,
        0x3000,
        RamdiskTooHigh,
        &[Piece::Ramdisk],
        "the ramdisk at 0x7ffffff8 to 0x80000001 ends above 0x7fffffff, the last address that the kernel takes for it",
    );
    let (image, rows) = (with(bzimage(), 0x260, &0x8001u32.to_le_bytes()), rows());
    let boot = Boot::new(&image).rows(&rows);
    let text =
        "the kernel at 0x8000 to 0x8012 and 0x8000 to 0x10001 is not in one range of guest memory";
    refused(&boot, KernelOutside, &[Piece::Kernel], text);
    let image = elf();
    let pvh = Pvh {
        block: Some(at(0xfff8)),
        ..Pvh::default()
    };
    let boot = Boot::new(&image).rows(&rows).pvh(pvh);
    let text = "the start block at 0xfff8 to 0x10048 is not in one range of guest memory";
    refused(&boot, BadPart, &[Piece::StartBlock], text);
}

#[test]
fn no_two_pieces_share_a_byte() {
    use Piece::{Kernel, Line, Ramdisk, ZeroPage as Page};
    use Refusal::*;
    for (line, ramdisk, page, refusal, pieces, text) in [
        (
            0x80ff,
            0x200,
            0x3000,
            KernelMeetsLine,
            [Kernel, Line],
            "the kernel at 0x8000 to 0x8100 and the line at 0x80ff to 0x8113",
        ),
        (
            0x100,
            0x7ff8,
            0x3000,
            KernelMeetsRamdisk,
            [Kernel, Ramdisk],
            "the kernel at 0x8000 to 0x8012 and the ramdisk at 0x7ff8 to 0x8001",
        ),
        (
            0x100,
            0x200,
            0x7001,
            KernelMeetsBootData,
            [Kernel, Page],
            "the kernel at 0x8000 to 0x8012 and the zero page at 0x7001 to 0x8001",
        ),
        (
            0x100,
            0x113,
            0x3000,
            LineMeetsRamdisk,
            [Line, Ramdisk],
            "the line at 0x100 to 0x114 and the ramdisk at 0x113 to 0x11c",
        ),
        (
            0x3fff,
            0x200,
            0x3000,
            LineMeetsBootData,
            [Line, Page],
            "the line at 0x3fff to 0x4013 and the zero page at 0x3000 to 0x4000",
        ),
        (
            0x100,
            0x2ff8,
            0x3000,
            RamdiskMeetsBootData,
            [Ramdisk, Page],
            "the ramdisk at 0x2ff8 to 0x3001 and the zero page at 0x3000 to 0x4000",
        ),
    ] {
        let text = format!("{text} share a byte");
        refused_at(line, ramdisk, page, refusal, &pieces, &text);
    }
}

#[test]
fn kernel_line_and_ramdisk_lie_in_rows_of_type_1() {
    use Refusal::{KernelNotInRows, LineNotInRows, RamdiskNotInRows};
    let image = bzimage();
    let page = ZeroPage {
        is_64_bit: false,
        page: Some(at(0x3000)),
        line: Some(at(0x100)),
        ramdisk: Some(at(0x200)),
    };
    let boot = |rows: &[(GuestAddress, u64, u32)]| {
        let boot = Boot::new(&image).text(TEXT).ramdisk(DISK);
        boot.rows(rows).zero_page(page)
    };
    let not = "is not in one of the rows of type 1 of the memory map that the guest is given";
    let (kernel, low) = ((at(KERNEL), MEMORY, 1), (at(0), 0x114, 1));
    let text = format!("the kernel at 0x8000 to 0x8012 and 0x8000 to 0x8100 {not}");
    refused(&boot(&[low]), KernelNotInRows, &[Piece::Kernel], &text);
    let text = format!("the line at 0x100 to 0x114 {not}");
    refused(&boot(&[kernel]), LineNotInRows, &[Piece::Line], &text);
    let text = format!("the ramdisk at 0x200 to 0x209 {not}");
    refused(
        &boot(&[kernel, low]),
        RamdiskNotInRows,
        &[Piece::Ramdisk],
        &text,
    );
    booted(&boot(&[kernel, (at(0), 0x209, 1)]));
}

#[test]
fn single_pieces_have_calls_of_their_own() {
    let map = Map::from_ranges(&[(at(0), 40), (at(50), 50)]);
    assert!(has_room(&map, at(50), 50));
    assert!(!has_room(&map, at(39), 2));
    assert!(has_room(&map, at(45), 0));

    let mut guest = fresh(100);
    assert_eq!(put(&mut guest, &map, at(36), b"disk"), Ok(()));
    assert_eq!(put(&mut guest, &map, at(37), b"disk"), Err(Refusal::NoRoom));
    assert_eq!(
        put(&mut guest[..99], &map, at(0), b"x"),
        Err(Refusal::BadMap)
    );
    assert_eq!(guest, fresh_with(100, &[(36, b"disk")]));

    let placed = [span(0, 9), span(90, 10)];
    assert_eq!(place(&map, &placed, 0..u64::MAX, 8, 10), Some(at(16)));
    assert_eq!(place_high(&map, &placed, 0..u64::MAX, 8, 10), Some(at(80)));
    assert_eq!(place(&map, &placed, 0..25, 8, 10), None);

    let long = vec![b'x'; 2048];
    let image = bzimage();
    for format in [Format::Elf, Format::BzImage, Format::Arm64] {
        assert_eq!(line_check(format, &image, None, &long[1..]), Ok(()));
        let answer = line_check(format, &image, None, &long[..]);
        assert_eq!(answer, Err(Refusal::LineTooLong));
    }
    let line = Cmdline::try_from("quiet -- single", 100).expect("a line");
    assert_eq!(line_check(Format::Arm64, &[], Some(15), &line), Ok(()));
    let answer = line_check(Format::Arm64, &[], Some(14), &line);
    assert_eq!(answer, Err(Refusal::LineTooLong));
}

#[cfg(feature = "vm-memory")]
mod over_regions {
    use super::*;
    use vm_memory::{Bytes, GuestMemoryMmap};

    /// Boots into regions, of which two touch, and into a slice with the same map: the same answer, and the same bytes.
    fn same(boot: &Boot) {
        let regions = [(at(0), 0x2000), (at(0x2000), 0x7000), (at(0xa000), 0x6000)];
        let memory = GuestMemoryMmap::<()>::from_ranges(&regions).expect("memory");
        for (start, size) in regions {
            memory.write_slice(&fresh(size), start).expect("a region");
        }
        let map = Map::from_ranges(&[(at(0), 0x9000), (at(0xa000), 0x6000)]);
        let mut guest = fresh(GUEST);
        let answer = boot.load(&mut guest, &map);
        assert_eq!(boot.load_into(&memory), answer);
        for (start, size) in regions {
            let mut bytes = vec![0; size];
            memory.read_slice(&mut bytes, start).expect("a region");
            assert_eq!(bytes, guest[start.0 as usize..][..size], "{answer:?}");
        }
    }

    #[test]
    fn regions_are_filled_as_a_slice_is() {
        let (bzimage, elf, arm64, blob) = (bzimage(), elf(), arm64(), blob());
        let (rows, line) = (
            rows(),
            Cmdline::try_from("quiet -- single", 100).expect("a line"),
        );
        let tree = Tree {
            blob: &blob,
            ..Tree::default()
        };
        for ramdisk in [DISK, &[]] {
            for is_64_bit in [false, true] {
                let page = ZeroPage {
                    is_64_bit,
                    ..ZeroPage::default()
                };
                for image in [&bzimage, &elf] {
                    let boot = Boot::new(image).line(&line).ramdisk(ramdisk).rows(&rows);
                    same(&boot.zero_page(page));
                }
            }
            let boot = Boot::new(&elf).line(&line).ramdisk(ramdisk).rows(&rows);
            same(&boot.pvh(Pvh {
                rsdp: at(0xe0000),
                ..Pvh::default()
            }));
            same(&Boot::new(&arm64).text(TEXT).ramdisk(ramdisk).tree(tree));
        }
    }

    #[test]
    fn a_refusal_writes_nothing() {
        let (image, rows) = (bzimage(), rows());
        for line in [KERNEL, 0x8ff0, 0xfff0] {
            let page = ZeroPage {
                line: Some(at(line)),
                ..ZeroPage::default()
            };
            let boot = Boot::new(&image).text(TEXT).ramdisk(DISK).rows(&rows);
            same(&boot.zero_page(page));
        }
    }
}
