//! The command as a person runs it: words and standard input in; what it prints, and its exit status, out.

use std::io::Write;
use std::os::fd::OwnedFd;
use std::os::unix::net::UnixStream;
use std::process::{Command, Stdio};

/// What a run printed, and its exit status.
#[derive(Debug, PartialEq)]
struct Run {
    out: String,
    err: String,
    status: Option<i32>,
}

fn run(words: &[&str], input: &[u8]) -> Run {
    let mut child = Command::new(env!("CARGO_BIN_EXE_rekusoyen"))
        .args(words)
        .stdin(Stdio::piped())
        .stdout(Stdio::piped())
        .stderr(Stdio::piped())
        .spawn()
        .expect("the command starts");
    let mut stdin = child.stdin.take().expect("its standard input is a pipe");
    // one that does not read its input has closed the pipe
    let _ = stdin.write_all(input);
    drop(stdin);
    let output = child.wait_with_output().expect("the command ends");
    Run {
        out: String::from_utf8(output.stdout).expect("what it prints is text"),
        err: String::from_utf8(output.stderr).expect("what it prints is text"),
        status: output.status.code(),
    }
}

/// An accepted load: its result on standard output, and remarks on standard error.
fn accepted_with(words: &[&str], input: &[u8], out: &str, err: &str) {
    let expected = Run {
        out: out.to_string(),
        err: err.to_string(),
        status: Some(0),
    };
    assert_eq!(run(words, input), expected, "{words:?}");
}

fn accepted(words: &[&str], input: &[u8], out: &str) {
    accepted_with(words, input, out, "");
}

/// A refused load: nothing on standard output; on standard error number and name, what it was about, and what to try.
fn refused(words: &[&str], input: &[u8], err: &str) {
    let expected = Run {
        out: String::new(),
        err: err.to_string(),
        status: Some(1),
    };
    assert_eq!(run(words, input), expected, "{words:?}");
}

const NO_NOTES: &str = "rekusoyen: pvh is ignored since the image has no segment with notes\n";
const OFFSET: &str =
    "rekusoyen: pvh is ignored since --offset moves the kernel away from its PVH entry\n";

/// An ELF image: entry 16, and one segment of 3 bytes for address 16 with 8 bytes of memory.
fn elf() -> Vec<u8> {
    let mut image = vec![0; 120];
    image[..6].copy_from_slice(b"\x7fELF\0\x01");
    for (place, value) in [
        (24, 16),
        (32, 64),
        (54, 56),
        (56, 1),
        (64, 1),
        (72, 120),
        (88, 16),
        (96, 3),
        (104, 8),
    ] {
        image[place] = value;
    }
    image.extend([0xaa, 0xbb, 0xcc]);
    image
}

/// The same, with its segment turned into notes of no bytes.
fn elf_with_notes() -> Vec<u8> {
    let mut image = elf();
    image[64] = 4;
    image[96] = 0;
    image
}

/// A bzImage: two sectors of setup, code32_start 16, a cmdline_size of 9, and a kernel of 3 bytes.
fn bzimage() -> Vec<u8> {
    let mut image = vec![0; 1024];
    image[0x1f1] = 1;
    image[0x202..0x206].copy_from_slice(b"HdrS");
    for (place, value) in [(0x206, 15), (0x207, 2), (0x211, 1), (0x214, 16), (0x238, 9)] {
        image[place] = value;
    }
    image.extend(b"abc");
    image
}

/// The ELF image with another number at a place.
fn edited(place: usize, value: &[u8]) -> Vec<u8> {
    let mut image = elf();
    image[place..place + value.len()].copy_from_slice(value);
    image
}

/// The ELF image with notes in place of its segment.
fn elf_with(notes: &[u8]) -> Vec<u8> {
    let mut image = elf();
    image[64] = 4;
    image[96] = notes.len() as u8;
    image.truncate(120);
    image.extend(notes);
    image
}

#[test]
fn an_elf_load_prints_three_lines() {
    let told = "load 16\nend 24\npvh ignored\n";
    accepted_with(&["load"], &elf(), told, NO_NOTES);
    accepted_with(&["load", "--guest", "19"], &elf(), told, NO_NOTES);
    accepted_with(&["load", "--highmem", "16"], &elf(), told, NO_NOTES);
    accepted_with(
        &["load", "--offset", "0x4"],
        &elf(),
        "load 20\nend 28\npvh ignored\n",
        OFFSET,
    );
    accepted(
        &["load", "--format", "elf"],
        &elf_with_notes(),
        "load 16\nend 0\npvh none\n",
    );
}

#[test]
fn memory_without_bytes_counts_for_the_end() {
    let memory = edited(96, &[0]);
    let segment = "segment 0: load, no bytes, memory at guest 0x10 to 0x18\n";
    let told = "load 16\nend 24\npvh ignored\n";
    // it needs no room
    for guest in ["0", "32"] {
        let words = ["load", "--verbose", "--guest", guest];
        accepted_with(&words, &memory, &format!("{segment}{told}"), NO_NOTES);
    }
    let mut last = edited(96, &[0]);
    last[88..96].fill(0xff);
    refused(
        &["load"],
        &last,
        "refused 13 MemoryOverflow\n\
         segment 0: load, no bytes to guest 0xffffffffffffffff: with its 8 bytes of memory it ends at 2^64 or more\n",
    );
    refused(
        &["load", "--offset", "1"],
        &last,
        "refused 9 InvalidProgramHeaderAddress\n\
         segment 0: load, no bytes: the offset 0x1 and p_paddr 0xffffffffffffffff add up to 2^64 or more\n\
         try: a lower --offset, or none\n",
    );
    // without memory either it is passed over
    last[104] = 0;
    accepted_with(
        &["load", "--verbose", "--offset", "1"],
        &last,
        "segment 0: load, no bytes and no memory, skipped\nload 17\nend 0\npvh ignored\n",
        OFFSET,
    );
}

#[test]
fn a_bzimage_load_prints_two() {
    accepted(&["load"], &bzimage(), "load 16\nend 19\n");
    accepted(
        &["load", "--format=bzimage", "--offset", "1K"],
        &bzimage(),
        "load 1024\nend 1027\n",
    );
}

/// An arm64 Image of a header and three bytes, with its text offset at 16 and an image size of 200.
fn arm64() -> Vec<u8> {
    let mut image = vec![0; 67];
    image[8] = 16;
    image[16] = 200;
    image[56..60].copy_from_slice(b"ARM\x64");
    image
}

#[test]
fn an_arm64_load_prints_two() {
    accepted(&["load"], &arm64(), "load 16\nend 216\n");
    accepted(
        &["load", "--format", "arm64", "--base", "2M"],
        &arm64(),
        "load 2097168\nend 2097368\n",
    );
    accepted(
        &["load", "--verbose", "--guest", "83"],
        &arm64(),
        "header: text offset 0x10, image size 200, flags 0x0\nkernel: 67 bytes to guest 0x10, memory to 0xd8\nload 16\nend 216\n",
    );
    accepted_with(
        &["load", "--offset", "1", "--highmem", "2"],
        &arm64(),
        "load 16\nend 216\n",
        "rekusoyen: --offset or --highmem has no say in a load of an arm64 Image\n",
    );
    accepted_with(
        &["load", "--base", "2M"],
        &bzimage(),
        &run(&["load"], &bzimage()).out,
        "rekusoyen: --base has no say in a load of a bzImage\n",
    );
}

#[test]
fn a_refused_arm64_load_says_what_it_was_about() {
    refused(
        &["load", "--format", "arm64"],
        &elf(),
        "refused 82 BadImageMagic\nat 0x38 there is no 'ARM\\x64' of an arm64 Image: it looks like an ELF image\ntry: without --format arm64\n",
    );
    refused(
        &["load", "--base", "0x201000"],
        &arm64(),
        "refused 85 UnalignedBase\nthe base 0x201000 is not a multiple of 0x200000\ntry: --base 0x200000\n",
    );
    refused(
        &["load", "--guest", "82"],
        &arm64(),
        "refused 87 NoRoomForImage\nthe file's 67 bytes go to guest 0x10 to 0x53, and guest memory ends at 0x52\ntry: --guest 0x53 or more, or another --base\n",
    );
}

#[test]
fn as_much_guest_memory_as_is_taken() {
    accepted(
        &["load", "--guest", "1T", "--offset", "0xfffffffffd"],
        &bzimage(),
        "load 1099511627773\nend 1099511627776\n",
    );
    refused(
        &["load", "--guest", "2T"],
        &bzimage(),
        "refused 60 SliceTooLong\n\
         guest memory has 2199023255552 bytes, and at most 1099511627776 are taken\n\
         try: --guest 1T or less\n",
    );
}

#[test]
fn a_line_goes_where_it_is_told_or_behind_the_kernel() {
    let line = ["load", "--guest", "30", "--cmdline", "quiet"];
    let at = |address| [&line[..], &["--at", address]].concat();
    let told = |address| format!("load 16\nend 24\npvh ignored\ncmdline {address}\n");
    accepted_with(&line, &elf(), &told(24), NO_NOTES);
    accepted_with(&at("2"), &elf(), &told(2), NO_NOTES);
    accepted_with(&at("10"), &elf(), &told(10), NO_NOTES);
    refused(
        &at("25"),
        &elf(),
        "refused 32 CommandLineOverflow\n\
         the command line's 6 bytes go to guest 0x19 to 0x1f, and guest memory ends at 0x1e\n\
         try: --guest 0x1f or more, or a lower --at\n",
    );
    refused(
        &["load", "--cmdline", " -- init"],
        &elf(),
        "refused 31 InvalidCommandLine\n\
         the command line has init arguments alone: nothing stands before its ' -- '\n\
         try: a boot argument before it, as in 'quiet -- single'\n",
    );
    refused(
        &["load", "--cmdline", &"x".repeat(16384)],
        &elf(),
        "refused 41 InvalidCapacity\nthe command line of 16384 bytes takes more than 16384, its zero counted\n",
    );
}

#[test]
fn a_line_over_the_kernel_is_remarked_on() {
    // its last byte on the segment's first, its first on the last byte of the segment's memory
    for (at, from, to) in [("11", "0xb", "0x11"), ("23", "0x17", "0x1d")] {
        let words = ["load", "--guest", "30", "--cmdline", "quiet", "--at", at];
        let over = format!(
            "rekusoyen: the command line at {from} to {to} lies over segment 0 at 0x10 to 0x18\n"
        );
        let told = format!("load 16\nend 24\npvh ignored\ncmdline {at}\n");
        accepted_with(&words, &elf(), &told, &format!("{NO_NOTES}{over}"));
    }
    accepted_with(
        &["load", "--guest", "30", "--cmdline", "quiet", "--at", "18"],
        &bzimage(),
        "load 16\nend 19\ncmdline 18\n",
        "rekusoyen: the command line at 0x12 to 0x18 lies over the kernel at 0x10 to 0x13\n",
    );
}

#[test]
fn a_line_longer_than_the_kernel_takes_is_remarked_on() {
    let line = |length| {
        [
            "load".to_string(),
            "--cmdline".to_string(),
            "x".repeat(length),
        ]
    };
    let run = |length, image: &[u8]| {
        let words = line(length);
        run(&words.each_ref().map(String::as_str), image)
    };
    let told = |has, takes| {
        format!("rekusoyen: the command line has {has} bytes, and the kernel takes {takes}: a boot is refused\n")
    };
    let mut old = bzimage();
    old[0x206] = 5;
    for (image, takes, before) in [
        (bzimage(), 9, ""),
        (old, 255, ""),
        (elf(), 2047, NO_NOTES),
        (arm64(), 2047, ""),
    ] {
        assert_eq!(run(takes, &image).err, before);
        let long = run(takes + 1, &image);
        assert_eq!(long.err, format!("{before}{}", told(takes + 1, takes)));
        assert_eq!(long.status, Some(0));
    }
}

/// A bzImage that is booted: at 0x4000, where it takes 0x1000 bytes, with a 64-bit entry.
fn bootable() -> Vec<u8> {
    let mut image = bzimage();
    for (place, bytes) in [
        (0x214, &[0, 0x40][..]),      // code32_start
        (0x22c, &[0xff, 0xff, 0xff]), // initrd_addr_max
        (0x234, &[1]),                // relocatable_kernel
        (0x236, &[1]),                // xloadflags
        (0x238, &[0xff, 7]),          // cmdline_size
        (0x260, &[0, 0x10]),          // init_size
    ] {
        image[place..place + bytes.len()].copy_from_slice(bytes);
    }
    image
}

/// A file for a run, which goes with the test.
struct Written(std::path::PathBuf);

impl Written {
    fn new(name: &str, bytes: &[u8]) -> Written {
        let name = format!("rekusoyen-{}-{name}", std::process::id());
        let path = std::env::temp_dir().join(name);
        std::fs::write(&path, bytes).expect("a file in the folder for such files");
        Written(path)
    }

    fn name(&self) -> &str {
        self.0.to_str().expect("its name is text")
    }
}

impl Drop for Written {
    fn drop(&mut self) {
        let _ = std::fs::remove_file(&self.0);
    }
}

#[test]
fn a_boot_shows_its_layout() {
    let disk = Written::new("disk", &[7; 100]);
    accepted(
        &[
            "boot",
            "--guest",
            "64K",
            "--cmdline",
            "quiet",
            "--ramdisk",
            disk.name(),
        ],
        &bootable(),
        "\
entry 0x4000, by zero page in 32-bit mode

0x10000 +-----------+
        |           | 3996 bytes free
 0xf064 +-----------+
        | ramdisk   | 100 bytes
 0xf000 +-----------+
        |           | 40K free
 0x5000 +-----------+
        | kernel    | 4K
 0x4000 +-----------+
        |           | 8186 bytes free
 0x2006 +-----------+
        | line      | 6 bytes
 0x2000 +-----------+
        | zero page | 4K
 0x1000 +-----------+
        |           | 4K free
    0x0 +-----------+

piece      from    to      bytes
zero page  0x1000  0x2000  4096
line       0x2000  0x2006  6
kernel     0x4000  0x4003  3
kernel     0x4000  0x5000  4096
ramdisk    0xf000  0xf064  100
",
    );
    // a hole, rows, a mode and addresses
    accepted(
        &[
            "boot",
            "--map",
            "0:20K,0x6000:4K",
            "--rows",
            "0:20K:1",
            "--entry",
            "page64",
            "--data-at",
            "0x6000",
            "--at",
            "0x20",
        ],
        &bootable(),
        "\
entry 0x4200, by zero page in 64-bit mode

0x7000 +-----------+
       | zero page | 4K
0x6000 +-----------+
       : hole      : 4K
0x5000 +-----------+
       | kernel    | 4K
0x4000 +-----------+
       |           | 16351 bytes free
  0x21 +-----------+
       | line      | 1 byte
  0x20 +-----------+
       |           | 32 bytes free
   0x0 +-----------+

piece      from    to      bytes
line       0x20    0x21    1
kernel     0x4000  0x4003  3
kernel     0x4000  0x5000  4096
zero page  0x6000  0x7000  4096
",
    );
}

#[test]
fn every_entry_is_shown() {
    let pvh = elf_with(b"\x04\0\0\0\x04\0\0\0\x12\0\0\0Xen\0\0\0\x10\0");
    let shown = run(&["boot", "--guest", "64K"], &pvh);
    assert!(
        shown.out.starts_with("entry 0x100000, by PVH\n"),
        "{shown:?}"
    );
    assert!(shown
        .out
        .ends_with("start block  0x1000  0x1050  80\nline         0x1050  0x1051  1\n"));

    let tree = Written::new("tree", b"a tree: quiet\0");
    let words = [
        "boot",
        "--guest",
        "8M",
        "--base",
        "4M",
        "--cmdline",
        "quiet",
        "--tree",
    ];
    let shown = run(&[&words[..], &[tree.name()]].concat(), &arm64());
    assert!(
        shown
            .out
            .starts_with("entry 0x400010, with a device tree\n"),
        "{shown:?}"
    );
    assert!(shown.out.ends_with(
        "\
piece        from      to        bytes
device tree  0x1000    0x100e    14
kernel       0x400010  0x4000d8  200
"
    ));
}

#[test]
fn a_refused_boot_says_which_pieces_and_which_rule() {
    let boot = |words: &[&'static str]| {
        [&["boot", "--guest", "64K", "--cmdline", "quiet"], words].concat()
    };
    for (words, told) in [
        (
            &["--at", "0x4fff"][..],
            "refused 100 KernelMeetsLine\n\
             the kernel at 0x4000 to 0x5000 and the line at 0x4fff to 0x5005 share a byte\n\
             try: another --at, or none: then it is placed\n",
        ),
        (
            &["--at", "0x1000", "--data-at", "0x1005"],
            "refused 104 LineMeetsBootData\n\
             the line at 0x1000 to 0x1006 and the zero page at 0x1005 to 0x2005 share a byte\n\
             try: another --data-at, or none: then it is placed\n",
        ),
        (
            &["--at", "0x10000"],
            "refused 32 CommandLineOverflow\n\
             the line at 0x10000 to 0x10006 is not in one range of guest memory\n\
             try: another --at, or none: then it is placed\n",
        ),
        (
            &["--rows", "0:16K:1"],
            "refused 106 KernelNotInRows\n\
             the kernel at 0x4000 to 0x4003 and 0x4000 to 0x5000 is not in one of the rows of type 1 of the memory \
             map that the guest is given\n\
             try: --rows that have it with type 1\n",
        ),
        (
            &["--entry", "pvh"],
            "refused 94 NoPvhEntry\nthe image has no PVH entry, and the boot is a PVH boot\ntry: another --entry\n",
        ),
        (
            &["--entry", "tree"],
            "refused 92 WrongEntry\na bzImage is not entered with a device tree\ntry: another --entry\n",
        ),
        (
            &["--offset", "0x10000"],
            "refused 24 ReadBzImageCompressedKernel\n\
             the kernel's 3 bytes go to guest 0x10000 to 0x10003, and guest memory ends at 0x10000\n\
             try: --guest 0x10003 or more, or another --offset\n",
        ),
        (
            &["--guest", "18K"],
            "refused 96 KernelOutside\n\
             the kernel at 0x4000 to 0x4003 and 0x4000 to 0x5000 is not in one range of guest memory\n\
             try: more memory, by --guest or --map\n",
        ),
    ] {
        refused(&boot(words), &bootable(), told);
    }
    let long = "x".repeat(2048);
    refused(
        &["boot", "--guest", "64K", "--cmdline", &long],
        &bootable(),
        "refused 91 LineTooLong\nthe line has 2048 bytes, and the kernel takes 2047\ntry: a shorter --cmdline\n",
    );
    refused(
        &["boot", "--guest", "64K"],
        b"",
        "refused 7 ReadElfHeader\nstandard input was empty\n",
    );
}

#[test]
fn a_boot_that_cannot_be_read_is_wrong_usage() {
    for words in [
        &["boot", "--ramdisk", "/no/such/file"][..],
        &["boot", "--tree", "/no/such/file"],
        &["boot", "vmlinuz"],
        &["boot", "--entry", "bios"],
    ] {
        let run = run(words, &bootable());
        assert_eq!((run.out.as_str(), run.status), ("", Some(2)), "{words:?}");
        assert!(run.err.starts_with("rekusoyen: "), "{}", run.err);
    }
    assert!(run(&["boot", "--help"], b"")
        .out
        .starts_with("usage: rekusoyen boot"));
}

#[test]
fn a_refused_elf_load_says_what_it_was_about() {
    refused(
        &["load", "--guest", "18"],
        &elf(),
        "refused 10 ReadKernelImage\n\
         segment 0: load, 3 bytes at 0x78 to guest 0x10: they end at 0x13, and guest memory at 0x12\n\
         try: --guest 0x13 or more\n",
    );
    refused(
        &["load"],
        &elf()[..122],
        "refused 10 ReadKernelImage\nsegment 0: load, 3 bytes at 0x78: they end at 0x7b, and the image at 0x7a\n",
    );
    // more guest memory than is taken is no advice
    refused(
        &["load"],
        &edited(88, &(1u64 << 50).to_le_bytes()),
        "refused 10 ReadKernelImage\n\
         segment 0: load, 3 bytes at 0x78 to guest 0x4000000000000: they end at 0x4000000000003, and guest memory at 0x40000000\n",
    );
    refused(
        &["load", "--highmem", "17"],
        &elf(),
        "refused 5 InvalidEntryAddress\n\
         e_entry is 0x10, below the start of high memory, 0x11\n\
         try: --highmem 0x10 or lower, or none\n",
    );
    refused(
        &["load"],
        b"",
        "refused 7 ReadElfHeader\nstandard input was empty\n",
    );
    refused(
        &["load"],
        &elf()[..63],
        "refused 7 ReadElfHeader\nthe image has 63 bytes, and an ELF header has 64\n",
    );
    refused(
        &["load"],
        &[0; 64],
        "refused 1 InvalidElfMagicNumber\n\
         the image begins with 00 00 00 00, and an ELF image with 7f 45 4c 46, and there is no 'HdrS' of a bzImage at 0x202\n",
    );
    refused(
        &["load"],
        &edited(5, &[2]),
        "refused 2 BigEndianElfOnLittle\nbyte 5 of the ELF header is 2, and not 1: its numbers are big-endian\n",
    );
    let mut narrow = edited(54, &[32]);
    narrow[4] = 1;
    refused(
        &["load"],
        &narrow,
        "refused 3 InvalidProgramHeaderSize\n\
         e_phentsize is 32, and a program header has 56 bytes: it is a 32-bit ELF image\n",
    );
    refused(
        &["load"],
        &edited(32, &[52]),
        "refused 4 InvalidProgramHeaderOffset\n\
         e_phoff is 0x34: the program headers would begin inside the ELF header, which has 64 bytes\n",
    );
    refused(
        &["load"],
        &edited(56, &[2]),
        "refused 8 ReadProgramHeader\n\
         2 program headers of 56 bytes from e_phoff 0x40 on end at 0xb0, and the image at 0x7b\n",
    );
    refused(
        &["load", "--offset", "0xfffffffffffffff0"],
        &elf(),
        "refused 6 Overflow\n\
         the offset 0xfffffffffffffff0 and e_entry 0x10 add up to 2^64 or more\n\
         try: a lower --offset, or none\n",
    );
    refused(
        &["load", "--offset", "0xfffffffffffffff0"],
        &edited(24, &[0]),
        "refused 9 InvalidProgramHeaderAddress\n\
         segment 0: load, 3 bytes at 0x78: the offset 0xfffffffffffffff0 and p_paddr 0x10 add up to 2^64 or more\n\
         try: a lower --offset, or none\n",
    );
    refused(
        &["load"],
        &edited(104, &[0xff; 8]),
        "refused 13 MemoryOverflow\n\
         segment 0: load, 3 bytes at 0x78 to guest 0x10: with its 18446744073709551615 bytes of memory it ends at 2^64 or more\n",
    );
    refused(
        &["load"],
        &edited(104, &[2]),
        "refused 14 InvalidProgramHeaderFileSize\n\
         segment 0: load, 3 bytes at 0x78: they are more than its 2 bytes of memory\n",
    );
}

#[test]
fn a_refused_note_is_told_by_its_place() {
    let advice =
        "try: --offset 0, with which the kernel stays where it is and notes are not read\n";
    let first = b"\x04\0\0\0\0\0\0\0\x01\0\0\0GNU\0";
    let large = [&first[..], b"\xfd\xff\xff\xff\0\0\0\0\x01\0\0\0"].concat();
    refused(
        &["load"],
        &elf_with(&large),
        &format!(
            "refused 6 Overflow\n\
             segment 0, note 1 at 0x88: its name's size is 0xfffffffd, which rounded up to 4 does not fit into 32 bits\n{advice}"
        ),
    );
    refused(
        &["load"],
        &elf_with(&[&first[..], b"\0\0\0\0"].concat()),
        &format!(
            "refused 11 ReadNoteHeader\n\
             segment 0, note 1 at 0x88: its header ends at 0x94, and the image at 0x8c\n{advice}"
        ),
    );
    refused(
        &["load"],
        &elf_with(b"\x04\0\0\0\x03\0\0\0\x12\0\0\0Xen\0\0\0\0\0"),
        &format!(
            "refused 12 InvalidPvhNote\n\
             segment 0, note 0 at 0x78: the descriptor of the PVH note has 3 bytes, and an address needs 4\n{advice}"
        ),
    );
}

#[test]
fn a_refused_bzimage_load_says_what_it_was_about() {
    refused(
        &["load", "--guest", "0"],
        &bzimage(),
        "refused 24 ReadBzImageCompressedKernel\n\
         the kernel's 3 bytes go to guest 0x10 to 0x13, and guest memory ends at 0x0\n\
         try: --guest 0x13 or more, or another --offset\n",
    );
    refused(
        &["load"],
        &bzimage()[..1023],
        "refused 22 Underflow\nits setup has 1024 bytes, by setup_sects at 0x1f1, and the image has 1023\n",
    );
    refused(
        &["load", "--highmem", "1M"],
        &bzimage(),
        "refused 23 InvalidKernelStartAddress\n\
         code32_start is 0x10, below the start of high memory, 0x100000\n\
         try: --highmem 0x10 or lower, or none\n",
    );
    let mut old = bzimage();
    old[0x207] = 1;
    refused(
        &["load"],
        &old,
        "refused 21 InvalidBzImage\nits boot protocol at 0x206 is 1.15, and 2.00 is needed\n",
    );
    let mut low = bzimage();
    low[0x211] = 0;
    refused(
        &["load"],
        &low,
        "refused 21 InvalidBzImage\nbit 0 of loadflags at 0x211 is 0: its kernel is not loaded high\n",
    );
}

#[test]
fn a_format_that_is_forced_gets_no_false_hint() {
    refused(
        &["load", "--format", "elf"],
        &bzimage(),
        "refused 1 InvalidElfMagicNumber\n\
         the image begins with 00 00 00 00, and an ELF image with 7f 45 4c 46: it looks like a bzImage\n\
         try: without --format elf\n",
    );
    refused(
        &["load", "--format", "bzimage"],
        &elf(),
        "refused 21 InvalidBzImage\n\
         the image has 123 bytes, and 'HdrS' of a bzImage stands at 0x202: it looks like an ELF image\n\
         try: without --format bzimage\n",
    );
    let packed = [&b"\x1f\x8b"[..], &[0; 70]].concat();
    refused(
        &["load"],
        &packed,
        "refused 1 InvalidElfMagicNumber\n\
         the image begins with 1f 8b 00 00, and an ELF image with 7f 45 4c 46: \
         it looks like a gzip file\n\
         try: to unpack it first\n",
    );
}

#[test]
fn verbose_shows_segments_notes_and_parts() {
    accepted_with(
        &["load", "--verbose"],
        &elf(),
        "segment 0: load, 3 bytes at 0x78 to guest 0x10, memory to 0x18\nload 16\nend 24\npvh ignored\n",
        NO_NOTES,
    );
    accepted_with(
        &["load", "--verbose", "--offset", "16"],
        &elf_with_notes(),
        "segment 0: notes, 0 bytes at 0x78, not read since there is an offset\nload 32\nend 0\npvh ignored\n",
        OFFSET,
    );
    // two note segments, of which the first has the PVH note and the second another
    let mut notes = elf_with(b"\x04\0\0\0\x04\0\0\0\x12\0\0\0Xen\0\0\0\x10\0");
    let mut second = notes[64..120].to_vec();
    notes[56] = 2;
    notes[72] = 176;
    (second[8], second[32]) = (196, 12);
    notes.splice(120..120, second);
    notes.extend(b"\0\0\0\0\0\0\0\0\x01\0\0\0");
    accepted(
        &["load", "--verbose"],
        &notes,
        "segment 0: notes, 20 bytes at 0xb0\n  \
         note 0: 'Xen' of type 18, descriptor of 4 bytes at 0xc0\n  \
         pvh entry 0x100000\n\
         segment 1: notes, 12 bytes at 0xc4\n  \
         note 0: '' of type 1, descriptor of 0 bytes at 0xd0\n  \
         no pvh entry\n\
         pvh note: the one with the descriptor of 4 bytes at 0xc0\n\
         load 16\nend 0\npvh 1048576\n",
    );
    accepted(
        &["load", "--verbose"],
        &bzimage(),
        "setup: 1024 bytes, boot protocol 2.15\nkernel: 3 bytes at 0x400 to guest 0x10\nload 16\nend 19\n",
    );
    // of a refused load, too
    let segment = "segment 0: load, 3 bytes at 0x78 to guest 0x10: they end at 0x13, and guest memory at 0x12\n";
    refused(
        &["load", "--verbose", "--guest", "18"],
        &elf(),
        &format!("refused 10 ReadKernelImage\n{segment}try: --guest 0x13 or more\n{segment}"),
    );
}

#[test]
fn without_words_a_built_in_image_is_loaded() {
    let run = run(&[], b"");
    assert_eq!((run.err.as_str(), run.status), ("", Some(0)));
    for shown in [
        "  note 0: 'Xen' of type 18, descriptor of 4 bytes at 0xc6\n  pvh entry 0x20\n",
        "pvh note: the one with the descriptor of 4 bytes at 0xc6\n",
        "load 32\nend 48\npvh 32\ncmdline 48\n",
        "guest 0x20  kernel..........\nguest 0x30  quiet\\x00..........\n",
    ] {
        assert!(run.out.contains(shown), "{}", run.out);
    }
}

#[test]
fn wrong_usage_is_told_apart() {
    for words in [
        &["load", "--guest", "lots"][..],
        &["store"],
        &["--verbose"],
        &["load", "--guest", "0xffffffffffffffff"],
    ] {
        let run = run(words, &elf());
        assert_eq!((run.out.as_str(), run.status), ("", Some(2)), "{words:?}");
        assert!(run.err.starts_with("rekusoyen: "), "{}", run.err);
    }
    assert_eq!(run(&["--help"], b"").status, Some(0));
    accepted(
        &["--version"],
        b"",
        concat!("rekusoyen ", env!("CARGO_PKG_VERSION"), "\n"),
    );
}

#[test]
fn a_file_that_is_named_gets_the_line_to_type() {
    let run = run(&["load", "--guest", "64M", "my vmlinuz"], b"");
    assert_eq!((run.out.as_str(), run.status), ("", Some(2)));
    let name = env!("CARGO_BIN_EXE_rekusoyen");
    let line = format!("\n    {name} load --guest 64M < 'my vmlinuz'\n");
    assert!(run.err.contains(&line), "{}", run.err);
}

/// Whoever reads the result may have had enough: the command ends without a word.
#[test]
fn a_closed_pipe_ends_quietly() {
    for words in [&["--help"][..], &[], &["load"]] {
        let (reader, writer) = UnixStream::pair().expect("a pair of sockets");
        drop(reader);
        let mut child = Command::new(env!("CARGO_BIN_EXE_rekusoyen"))
            .args(words)
            .stdin(Stdio::piped())
            .stdout(OwnedFd::from(writer))
            .stderr(Stdio::piped())
            .spawn()
            .expect("the command starts");
        let mut stdin = child.stdin.take().expect("its standard input is a pipe");
        let _ = stdin.write_all(&bzimage());
        drop(stdin);
        let output = child.wait_with_output().expect("the command ends");
        let err = String::from_utf8_lossy(&output.stderr).into_owned();
        assert_eq!(
            (err.as_str(), output.status.code()),
            ("", Some(0)),
            "{words:?}"
        );
    }
}

#[test]
fn the_words_of_a_line_are_shown() {
    let line = b"quiet  root=/dev/vda motd=\"good morning\"\n";
    accepted(
        &["words"],
        line,
        "0 5 key quiet\n\
         7 20 key root value /dev/vda\n\
         21 40 key motd value \"good morning\"\n",
    );
    accepted(&["words"], b"", "");
    refused(
        &["words"],
        b"quiet motd=\"good",
        "refused 71 UnclosedQuote\n\
         the quote at 11 is not closed\n\
         try: a second quote where the value ends\n",
    );
}
