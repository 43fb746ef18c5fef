//! What the published crate does where the rules depart from it, and outside the domain in which they promise to equal it: one line for
//! each smallest input.

use crate::guest::content;
use crate::numbers;
use driver::answer::UNNUMBERED;
use driver::examples;
use driver::question::Load;
use linux_loader::cmdline::Cmdline;
use linux_loader::loader::elf::PvhBootCapability;
use linux_loader::loader::{load_cmdline, BzImage, Elf, KernelLoader, KernelLoaderResult};
use std::fs::File;
use std::io::{Cursor, Read, Seek};
use std::panic::{catch_unwind, AssertUnwindSafe};
use vm_memory::{Address, Bytes, GuestAddress, GuestMemoryMmap, ReadVolatile};

pub fn show_all() {
    // a panic is one of the outcomes shown
    std::panic::set_hook(Box::new(|_| {}));
    departures();
    failed_copies();
    empty_kernels();
    empty_guests();
    several_regions();
    files();
    high_bytes();
    large_capacities();
}

fn say(input: &str, rules: &str, published: String) {
    println!("{input}\n  rules: {rules}\n  crate: {published}");
}

fn with_image(mut load: Load, change: impl Fn(&mut Vec<u8>)) -> Load {
    change(&mut load.image);
    load
}

fn with_guest(mut load: Load, length: usize) -> Load {
    load.guest = examples::guest(length);
    load
}

/// By request: where the crate does something else by intent.
fn departures() {
    for (name, what, rules, load) in examples::departures() {
        say(&format!("{name}: ELF, {what}"), rules, loaded::<Elf>(&load));
    }
}

fn failed_copies() {
    let elf = examples::small_elf;
    let rules = "refused 10, nothing written";
    say(
        "ELF, one segment of 3 bytes for address 16, 18 guest bytes",
        rules,
        loaded::<Elf>(&with_guest(elf(), 18)),
    );
    say(
        "ELF, the same, 16 guest bytes",
        rules,
        loaded::<Elf>(&with_guest(elf(), 16)),
    );
    say(
        "ELF, the same, 32 guest bytes, image one byte short",
        rules,
        loaded::<Elf>(&with_image(elf(), |image| image.truncate(122))),
    );
    say(
        "bzImage, a kernel of 3 bytes for address 4, 6 guest bytes",
        "refused 24, nothing written",
        loaded::<BzImage>(&with_guest(examples::small_bzimage(), 6)),
    );
}

fn empty_kernels() {
    let empty = || with_image(examples::small_bzimage(), |image| image.truncate(1024));
    for (guest, place) in [(5, "in the guest"), (4, "at its end"), (3, "past its end")] {
        say(
            &format!("bzImage, a kernel of 0 bytes for address 4, {guest} guest bytes ({place})"),
            "load 4, end 4, nothing written",
            loaded::<BzImage>(&with_guest(empty(), guest)),
        );
    }
    let load = with_guest(empty(), 3);
    let last = Some(GuestAddress(u64::MAX));
    let answer = BzImage::load(&memory_of(&load), last, &mut Cursor::new(&load.image), None);
    say(
        "bzImage, a kernel of 0 bytes, offset 2^64 - 1, 3 guest bytes",
        "load and end 2^64 - 1, nothing written",
        outcome(Some(answer.map_err(numbers::of_loader))),
    );
}

fn empty_guests() {
    let region = GuestMemoryMmap::<()>::from_ranges(&[(GuestAddress(0), 0)]);
    say(
        "guest memory of one region of 0 bytes",
        "guest memory may be empty",
        match region {
            Ok(_) => "made".into(),
            Err(error) => format!("the memory library makes none: {error}"),
        },
    );
    let none = GuestMemoryMmap::new();
    say(
        "ELF, the small image, guest memory of no regions",
        "refused 10",
        outcome(run::<Elf>(
            &none,
            &mut Cursor::new(&examples::small_elf().image),
        )),
    );
    let no_headers = with_image(examples::small_elf(), |image| image[56] = 0);
    say(
        "ELF without program headers, guest memory of no regions",
        "load 16, end 0",
        outcome(run::<Elf>(&none, &mut Cursor::new(&no_headers.image))),
    );
    say(
        "bzImage, a kernel of 3 bytes, guest memory of no regions",
        "refused 24",
        outcome(run::<BzImage>(
            &none,
            &mut Cursor::new(&examples::small_bzimage().image),
        )),
    );
    let line = Cmdline::new(1).expect("1 is a capacity");
    let put = || load_cmdline(&none, GuestAddress(0), &line).map_err(numbers::of_loader);
    say(
        "an empty line put to address 0, guest memory of no regions",
        "refused 32",
        match catch_unwind(AssertUnwindSafe(put)) {
            Ok(Ok(())) => "accepted".into(),
            Ok(Err(number)) => refused(number),
            Err(_) => "panics".into(),
        },
    );
}

/// Regions that touch are one run of memory to the crate, and a bad map here. Regions with a hole between them it is compared on, but for
/// what a failed copy leaves and for the name of a line's error.
fn several_regions() {
    let touching = [(GuestAddress(0), 17), (GuestAddress(17), 15)];
    let hole = [(GuestAddress(0), 17), (GuestAddress(18), 14)];
    for (regions, what, elf, bzimage, line) in [
        (
            touching,
            "0 to 16 and 17 to 31",
            "refused 77, nothing written",
            "refused 77, nothing written",
            "refused 77, nothing written",
        ),
        (
            hole,
            "0 to 16 and 18 to 31",
            "refused 10, nothing written",
            "refused 24, nothing written",
            "refused 32, nothing written",
        ),
    ] {
        let memory = || GuestMemoryMmap::from_ranges(&regions).expect("memory can be mapped");
        let small = memory();
        let answer = outcome(run::<Elf>(
            &small,
            &mut Cursor::new(&examples::small_elf().image),
        ));
        say(
            &format!("ELF, one segment of 3 bytes for address 16, regions {what}, first all 0"),
            elf,
            format!("{answer}; {}", held(&small)),
        );
        let kernel = with_image(examples::small_bzimage(), |image| image[0x214] = 16);
        let small = memory();
        let answer = outcome(run::<BzImage>(&small, &mut Cursor::new(&kernel.image)));
        say(
            &format!("bzImage, a kernel of 3 bytes for address 16, regions {what}, first all 0"),
            bzimage,
            format!("{answer}; {}", held(&small)),
        );
        let text = Cmdline::try_from("ab", 8).expect("it fits");
        let small = memory();
        let answer = match load_cmdline(&small, GuestAddress(16), &text) {
            Ok(()) => "accepted".into(),
            Err(error) => format!("{error:?}"),
        };
        say(
            &format!("the line \"ab\" put to address 16, regions {what}, first all 0"),
            line,
            format!("{answer}; {}", held(&small)),
        );
    }
}

/// What addresses 16 to 18 hold.
fn held(memory: &GuestMemoryMmap) -> String {
    let byte = |address| match memory.read_obj::<u8>(GuestAddress(address)) {
        Ok(byte) => format!("{byte:02x}"),
        Err(_) => "none".into(),
    };
    let bytes: Vec<String> = (16..19).map(byte).collect();
    format!("addresses 16 to 18 hold {}", bytes.join(" "))
}

fn files() {
    let far = with_image(examples::small_elf(), |image| image[79] = 0x80);
    let table = with_image(examples::small_elf(), |image| image[39] = 0x80);
    let note = with_image(far.clone(), |image| image[64] = 4);
    for (load, what, rules) in [
        (examples::small_elf(), "the small image", "load 16, end 24"),
        (table, "the small image with e_phoff 2^63 + 64", "refused 8"),
        (
            far,
            "the small image with p_offset 2^63 + 120",
            "refused 10",
        ),
        (note, "the same as a note header", "refused 11"),
    ] {
        let path = std::env::temp_dir().join(format!("compare-image-{}", std::process::id()));
        std::fs::write(&path, &load.image).expect("a temporary file can be written");
        let mut file = File::open(&path).expect("it was just written");
        let memory = memory_of(&load);
        let answer = outcome(run::<Elf>(&memory, &mut file));
        std::fs::remove_file(&path).expect("it is there");
        say(&format!("ELF from a file, {what}"), rules, answer);
    }
}

fn high_bytes() {
    let inserted = |text: &str| {
        let mut line = Cmdline::new(64).expect("64 is a capacity");
        match line.insert_str(text).and_then(|()| line.as_cstring()) {
            Ok(written) => format!("{written:?}"),
            Err(error) => refused(numbers::of_cmdline(error)),
        }
    };
    let whole = |text: &str, capacity| match Cmdline::try_from(text, capacity)
        .and_then(|line| line.as_cstring())
    {
        Ok(written) => format!("{written:?}"),
        Err(error) => refused(numbers::of_cmdline(error)),
    };
    say(
        "insert_str(\"\u{e9}\"), bytes C3 A9",
        "refused 42",
        inserted("\u{e9}"),
    );
    say(
        "insert_str of the no-break space, bytes C2 A0",
        "refused 42: only 9 to 13 and 32 are trimmed",
        inserted("\u{a0}"),
    );
    say(
        "insert_str of the next-line control, bytes C2 85",
        "refused 42",
        inserted("\u{85}"),
    );
    say(
        "try_from(\"\u{e9}\", 3)",
        "accepted: C3 A9 and the zero",
        whole("\u{e9}", 3),
    );
    say(
        "try_from of the no-break space, capacity 1",
        "refused 41: it is not trimmed",
        whole("\u{a0}", 1),
    );
}

fn large_capacities() {
    say(
        "new(16385)",
        "refused 41",
        Cmdline::new(16385).map_or_else(|error| format!("{error}"), |_| "accepted".into()),
    );
    let long = "a".repeat(16384);
    say(
        "try_from of 16,384 times \"a\", capacity 16385",
        "refused 41",
        Cmdline::try_from(&long, 16385)
            .map_or_else(|error| format!("{error}"), |_| "accepted".into()),
    );
    say(
        "new(the greatest usize), then insert_str(\"a\")",
        "refused 41",
        Cmdline::new(usize::MAX)
            .and_then(|mut line| line.insert_str("a"))
            .map_or_else(|error| format!("{error}"), |()| "accepted".into()),
    );
}

fn memory_of(load: &Load) -> GuestMemoryMmap {
    let region = (GuestAddress(0), load.guest.len());
    let memory = GuestMemoryMmap::from_ranges(&[region]).expect("memory can be mapped");
    memory
        .write_slice(&load.guest, GuestAddress(0))
        .expect("the content fits");
    memory
}

/// The load's outcome, and which guest bytes it changed.
fn loaded<L: KernelLoader>(load: &Load) -> String {
    let memory = memory_of(load);
    let answer = outcome(run::<L>(&memory, &mut Cursor::new(&load.image)));
    let after = content(&memory, &load.guest);
    let changed: Vec<String> = (0..after.len())
        .filter(|place| after[*place] != load.guest[*place])
        .map(|place| place.to_string())
        .collect();
    if changed.is_empty() {
        format!("{answer}, nothing written")
    } else {
        format!("{answer}, written: {}", changed.join(" "))
    }
}

type Outcome = Option<Result<KernelLoaderResult, u8>>;

/// What a load answers, or nothing where it panics.
fn run<L: KernelLoader>(
    memory: &GuestMemoryMmap,
    image: &mut (impl Read + ReadVolatile + Seek),
) -> Outcome {
    let load = || L::load(memory, None, image, None).map_err(numbers::of_loader);
    catch_unwind(AssertUnwindSafe(load)).ok()
}

fn outcome(outcome: Outcome) -> String {
    match outcome {
        Some(Ok(loaded)) => {
            let (load, end) = (loaded.kernel_load.raw_value(), loaded.kernel_end);
            let pvh = match loaded.pvh_boot_cap {
                PvhBootCapability::PvhEntryIgnored => String::new(),
                told => format!(", {told}"),
            };
            format!("load {load}, end {end}{pvh}")
        }
        Some(Err(number)) => refused(number),
        None => "panics".into(),
    }
}

fn refused(number: u8) -> String {
    if number == UNNUMBERED {
        "refused with an error that has no number".into()
    } else {
        format!("refused {number}")
    }
}
