//! Loads from a `File` into a `GuestMemoryMmap`, as a monitor does them: by this repository's crate and by the published one. The time is taken
//! in one process, and the peak of memory in a process of its own for each. Time and peak are told as ratios, the library's to the crate's.

use measure::rounds::{self, Spread};
use std::fs::File;
use std::io::Read;
use std::path::Path;
use std::process::Command;
use std::time::{Duration, Instant};
use vm_memory::{Bytes, GuestAddress, GuestMemoryMmap};

/// Below 640 KiB and from 1 MiB on.
const REGIONS: [(u64, usize); 2] = [(0, 0xa_0000), (0x10_0000, 127 << 20)];

const ROUNDS: usize = 60;

/// In how many processes the peak is taken; the least counts, for what else a process needs is not always the same.
const PEAKS: usize = 5;

/// Where a kernel was put: the load address and the end.
type Loaded = (u64, u64);

type Load = fn(&GuestMemoryMmap, &mut File, is_elf: bool) -> Loaded;

/// Declares a load by a crate of the published names.
macro_rules! load_by {
    ($name:ident, $program:ident) => {
        fn $name(memory: &GuestMemoryMmap, image: &mut File, is_elf: bool) -> Loaded {
            use $program::loader::{BzImage, Elf, KernelLoader};
            let loaded = if is_elf {
                Elf::load(memory, None, image, None)
            } else {
                BzImage::load(memory, None, image, None)
            };
            let kernel = loaded.expect("a good image");
            (kernel.kernel_load.0, kernel.kernel_end)
        }
    };
}

load_by!(by_library, rekusoyen);
load_by!(by_crate, linux_loader);

const CONTESTANTS: [(&str, Load); 2] = [("library", by_library), ("crate", by_crate)];

fn memory() -> GuestMemoryMmap {
    let regions = REGIONS.map(|(start, size)| (GuestAddress(start), size));
    GuestMemoryMmap::from_ranges(&regions).expect("memory can be mapped")
}

/// An image, and whether it is an ELF image.
fn open(path: &str) -> (File, bool) {
    let mut file = File::open(path).expect("an image can be read");
    let mut magic = [0; 4];
    file.read_exact(&mut magic).expect("an image has 4 bytes");
    (file, magic == *b"\x7fELF")
}

/// Prints a table with a row for each image. Peaks are in KiB.
pub fn print(images: &[String]) {
    println!("| image | bytes | time, pages there | time, pages not yet there | peak, library | crate | ratio | with the program's code |");
    println!("|---|---|---|---|---|---|---|---|");
    for path in images {
        check(path);
        let [there, not_yet] = [true, false].map(|is_there| time(path, is_there));
        let [library, published] = CONTESTANTS.map(|(who, _)| peak(who, path));
        let ratio = |which: usize| library[which] as f64 / published[which] as f64;
        let name = Path::new(path).file_name().expect("a file has a name");
        println!(
            "| {} | {} | {} | {} | {} | {} | {:.3} | {:.3} |",
            name.to_string_lossy(),
            std::fs::metadata(path).expect("an image is there").len(),
            in_words(there),
            in_words(not_yet),
            library[1],
            published[1],
            ratio(1),
            ratio(0),
        );
    }
}

fn in_words(spread: Spread) -> String {
    let Spread { low, median, high } = spread;
    format!("{median:.2} ({low:.2} to {high:.2})")
}

/// Both give the same answer and leave the same guest memory.
fn check(path: &str) {
    let loaded = CONTESTANTS.map(|(_, load)| {
        let (mut file, is_elf) = open(path);
        let memory = memory();
        let loaded = load(&memory, &mut file, is_elf);
        let content = REGIONS.map(|(start, size)| {
            let mut bytes = vec![0; size];
            let start = GuestAddress(start);
            memory.read_slice(&mut bytes, start).expect("it is there");
            bytes
        });
        (loaded, content)
    });
    assert!(loaded[0] == loaded[1], "both must load {path} alike");
}

/// How the library's time stands to the crate's, round by round.
fn time(path: &str, is_there: bool) -> Spread {
    let (mut file, is_elf) = open(path);
    let touched = memory();
    for (start, size) in REGIONS {
        let bytes = vec![1; size];
        let start = GuestAddress(start);
        touched.write_slice(&bytes, start).expect("it is there");
    }
    let seconds = rounds::interleaved(2, ROUNDS, |contestant| {
        let (_, load) = CONTESTANTS[contestant];
        let fresh;
        let memory = if is_there {
            &touched
        } else {
            fresh = memory();
            &fresh
        };
        timed(|| load(memory, &mut file, is_elf))
    });
    rounds::ratio(&seconds[0], &seconds[1])
}

fn timed(load: impl FnOnce() -> Loaded) -> Duration {
    let start = Instant::now();
    std::hint::black_box(load());
    start.elapsed()
}

/// The most memory that a process has at a time which does one load, in KiB: in all, and without the pages of the program itself.
fn peak(who: &str, path: &str) -> [u64; 2] {
    let program = std::env::current_exe().expect("this program has a path");
    let peak = || {
        let told = Command::new(&program).args(["peak", who, path]).output();
        let told = told.expect("this program can be run").stdout;
        let told = String::from_utf8(told).expect("two numbers");
        let mut numbers = told
            .split_whitespace()
            .map(|word| word.parse().expect("a number"));
        [(); 2].map(|()| numbers.next().expect("two numbers"))
    };
    let peaks: Vec<[u64; 2]> = (0..PEAKS).map(|_| peak()).collect();
    [0, 1].map(|which| {
        peaks
            .iter()
            .map(|peak| peak[which])
            .min()
            .expect("there are some")
    })
}

/// Does one load, and prints the peak of this process: in all, and without the pages of files, which are those of the program itself.
pub fn tell_peak(who: &str, path: &str) {
    let (_, load) = CONTESTANTS
        .into_iter()
        .find(|(name, _)| *name == who)
        .expect("library or crate");
    let (mut file, is_elf) = open(path);
    load(&memory(), &mut file, is_elf);
    let status = std::fs::read_to_string("/proc/self/status").expect("Linux tells of a process");
    let number = |name: &str| {
        let line = status.lines().find_map(|line| line.strip_prefix(name));
        let number = line.expect("it tells this").trim().trim_end_matches(" kB");
        number.parse::<u64>().expect("a number")
    };
    let (whole, files) = (number("VmHWM:"), number("RssFile:"));
    println!("{whole} {}", whole - files);
}
