//! Questions as a person reads them.

use crate::question::{
    Boot, Call, Load, Map, Options, PageBuild, PageRead, Question, StartWrite, Steps,
};
use std::fmt::Write;

pub fn show(question: &Question) -> String {
    match question {
        Question::Elf(load) => format!("an ELF load{}", show_load(load)),
        Question::Bzimage(load) => format!("a bzImage load{}", show_load(load)),
        Question::Arm64(load) => format!("an arm64 load{}", show_load(load)),
        Question::Note(walk) => format!(
            "a note walk from {} over {} bytes\n{}",
            walk.place,
            walk.size,
            show_bytes("image", &walk.image)
        ),
        Question::Line(calls) => format!("line calls\n{}", show_calls(calls)),
        Question::LineLoad(load) => format!(
            "a line put to address {}{}\n{}{}",
            load.address,
            show_map(&load.map),
            show_calls(&load.calls),
            show_bytes("guest", &load.guest)
        ),
        Question::Words(words) => format!(
            "the words of {}, into lists of {:?} places\n",
            text(&words.text),
            words.places
        ),
        Question::PageBuild(build) => show_build(build),
        Question::PageRead(read) => show_read(read),
        Question::Steps(steps) => show_steps(steps),
        Question::StartWrite(write) => show_write(write),
        Question::StartCheck(check) => format!(
            "the start block at {} checked, map {:?}\n{}",
            check.block,
            check.map,
            show_bytes("guest", &check.guest)
        ),
        Question::Job(job) => format!("a job\n{}", show_bytes("job", job)),
        Question::Boot(boot) => show_boot(boot),
    }
}

fn show_steps(steps: &Steps) -> String {
    let mut text = format!("a load in steps, {:?}", steps.loader);
    text += &show_options(steps.options);
    text += &format!(", map {:?}\n", steps.map);
    for call in &steps.calls {
        let (from, lent) = (call.place, steps.image(call).len());
        let map = if call.is_whole { ", whole" } else { "" };
        text += &format!("  budget {}, {lent} bytes from {from} on", call.budget);
        text += &format!(", guest {}{map}\n", steps.lent(call));
    }
    text + &show_bytes("bytes", &steps.bytes) + &show_bytes("guest", &steps.guest)
}

fn show_build(build: &PageBuild) -> String {
    let addresses = (build.command_line, build.ramdisk, build.ramdisk_size);
    let (length, fill) = (build.page.len(), build.page.first().unwrap_or(&0));
    let (numbers, header) = (&build.numbers, show_bytes("header", &build.header));
    format!("a page of {length} bytes {fill} built, addresses {addresses:?}, rows {numbers:?}\n{header}")
}

fn show_read(read: &PageRead) -> String {
    format!(
        "a page of {} bytes {} read, from {} on\n{}",
        read.length,
        read.fill,
        read.place,
        show_bytes("bytes", &read.bytes)
    )
}

fn show_write(write: &StartWrite) -> String {
    let places = (write.block, write.modules_at, write.ranges_at);
    let said = (write.flags, write.command_line, write.rsdp);
    let (modules, ranges, map) = (&write.modules, &write.ranges, &write.map);
    let guest = show_bytes("guest", &write.guest);
    format!("a start block written, parts at {places:?}, says {said:?}, modules {modules:?}, ranges {ranges:?}, map {map:?}\n{guest}")
}

fn show_boot(boot: &Boot) -> String {
    const NAMES: [&str; 12] = [
        "format",
        "flags",
        "offset",
        "highmem",
        "entry",
        "has limit",
        "limit",
        "line",
        "ramdisk",
        "boot data",
        "rsdp",
        "reserved",
    ];
    let names = NAMES.iter().chain(std::iter::repeat(&"more"));
    let mut said = format!("a boot, {} answers{}\n ", boot.answers, show_map(&boot.map));
    for (name, number) in names.zip(&boot.list) {
        said += &format!(" {name} {number:#x}");
    }
    said += &format!("\n  line {} -- {}\n", text(&boot.text), text(&boot.init));
    said += &format!("  rows {:?}\n", boot.rows);
    for (name, bytes) in [
        ("ramdisk", &boot.ramdisk),
        ("tree", &boot.tree),
        ("image", &boot.image),
        ("guest", &boot.guest),
    ] {
        said += &show_bytes(name, bytes);
    }
    said
}

fn show_options(options: Options) -> String {
    let mut text = String::new();
    for (name, option) in [("offset", options.offset), ("highmem", options.highmem)] {
        if let Some(number) = option {
            text += &format!(", {name} {number} ({number:#x})");
        }
    }
    text
}

fn show_load(load: &Load) -> String {
    let text = show_options(load.options) + &show_map(&load.map);
    text + "\n" + &show_bytes("image", &load.image) + &show_bytes("guest", &load.guest)
}

fn show_map(map: &Map) -> String {
    let Some(numbers) = map else {
        return String::new();
    };
    format!(", map {numbers:?}")
}

/// The length, and each run of bytes that are not 0 with its place.
fn show_bytes(name: &str, bytes: &[u8]) -> String {
    let mut text = format!("  {name}: {} bytes", bytes.len());
    let mut zeros = 4;
    for (place, byte) in bytes.iter().enumerate() {
        if *byte == 0 {
            zeros += 1;
            continue;
        }
        // a new run where zeros would take more room than its place
        if zeros >= 4 {
            write!(text, "\n    {place}:").expect("a string takes all");
            zeros = 0;
        }
        for _ in 0..std::mem::take(&mut zeros) {
            text += " 00";
        }
        write!(text, " {byte:02x}").expect("a string takes all");
    }
    text + "\n"
}

fn show_calls(calls: &[Call]) -> String {
    calls
        .iter()
        .map(|call| format!("  {}\n", show_call(call)))
        .collect()
}

fn show_call(call: &Call) -> String {
    match call {
        Call::New { capacity } => format!("new({capacity})"),
        Call::InsertStr(slug) => format!("insert_str({})", text(slug)),
        Call::InsertInitArgs(slug) => format!("insert_init_args({})", text(slug)),
        Call::Insert { key, value } => format!("insert({}, {})", text(key), text(value)),
        Call::InsertMultiple { key, ends, values } => {
            format!(
                "insert_multiple({}, {ends:?} of {})",
                text(key),
                text(values)
            )
        }
        Call::AddDevice {
            size,
            address,
            irq,
            id,
        } => format!("add_virtio_mmio_device({size}, {address}, {irq}, {id:?})"),
        Call::TryFrom {
            capacity,
            text: whole,
        } => format!("try_from({}, {capacity})", text(whole)),
        Call::AsCstring { room } => format!("as_cstring() into {room} bytes"),
        Call::Keep => "keep the line aside".into(),
        Call::IsEqual => "is it equal to the one kept aside?".into(),
    }
}

/// The text in quotes. Escapes stand for bytes that cannot be printed.
fn text(bytes: &[u8]) -> String {
    format!("\"{}\"", bytes.escape_ascii())
}

#[cfg(test)]
mod tests {
    use super::*;
    use crate::question::Walk;

    #[test]
    fn calls_read_like_calls() {
        let calls = vec![
            Call::New { capacity: 3 },
            Call::InsertStr(b"a\"\0".to_vec()),
        ];
        let wanted = "line calls\n  new(3)\n  insert_str(\"a\\\"\\x00\")\n";
        assert_eq!(show(&Question::Line(calls)), wanted);
    }

    #[test]
    fn bytes_are_shown_in_runs() {
        let image = [&[0; 6][..], &[1, 0, 2], &[0; 5], &[3]].concat();
        let walk = Walk {
            place: 0,
            size: 1,
            image,
        };
        let wanted =
            "a note walk from 0 over 1 bytes\n  image: 15 bytes\n    6: 01 00 02\n    14: 03\n";
        assert_eq!(show(&Question::Note(walk)), wanted);
    }
}
