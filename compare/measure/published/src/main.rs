//! The measurement with the published crate, linux-loader 0.14.0 over vm-memory.

mod files;

use linux_loader::cmdline::Cmdline;
use linux_loader::loader::{self, KernelLoader};
use measure::contestants::{Contestant, Lines, Load, Putting, Writing};
use measure::images::{Pairs, CAPACITY, START};
use rekusoyen::loader::{bootparam, elf::PvhBootCapability, KernelLoaderResult};
use std::io::Cursor;
use vm_memory::mmap::MmapRegionBuilder;
use vm_memory::{Address, ByteValued, GuestAddress, GuestMemoryMmap, GuestRegionMmap};

fn main() {
    let words: Vec<_> = std::env::args().skip(1).collect();
    match words.split_first() {
        Some((word, images)) if word == "files" => files::print(images),
        Some((word, [who, image])) if word == "peak" => files::tell_peak(who, image),
        _ => measure::run(Some(Box::new(Published))),
    }
}

struct Published;

impl Contestant for Published {
    fn name(&self) -> &'static str {
        "crate"
    }

    fn elf<'a>(&self, guest: &'a mut [u8], image: &'a [u8]) -> Load<'a> {
        ready::<loader::Elf>(guest, image)
    }

    fn bzimage<'a>(&self, guest: &'a mut [u8], image: &'a [u8]) -> Load<'a> {
        ready::<loader::BzImage>(guest, image)
    }

    fn lines(&self, lists: &[Pairs]) -> Lines {
        let build = |pairs: &Pairs| {
            let mut line = Cmdline::new(CAPACITY).expect("a good capacity");
            for (key, value) in pairs {
                line.insert(key, value).expect("a good pair");
            }
            line
        };
        let lines: Vec<_> = lists.iter().map(build).collect();
        let text = |line: &Cmdline| {
            let written = line.as_cstring().expect("a good line");
            written.into_bytes_with_nul()
        };
        Box::new(move || lines.iter().map(text).collect())
    }

    fn parsed(&self, text: &str) -> Lines {
        let line = Cmdline::try_from(text, CAPACITY).expect("a good text");
        let written = move || line.as_cstring().expect("a good line");
        Box::new(move || vec![written().into_bytes_with_nul()])
    }

    fn writing(&self, text: &str) -> Writing {
        let line = Cmdline::try_from(text, CAPACITY).expect("a good text");
        Box::new(move || {
            let written = line.as_cstring().expect("a good line");
            written.into_bytes_with_nul()
        })
    }

    fn putting<'a>(&self, guest: &'a mut [u8], text: &str) -> Putting<'a> {
        let line = Cmdline::try_from(text, CAPACITY).expect("a good text");
        let memory = region_over(guest);
        Box::new(move || {
            loader::load_cmdline(&memory, GuestAddress(0), &line).expect("a good line");
        })
    }
}

fn ready<'a, L: KernelLoader>(guest: &'a mut [u8], image: &'a [u8]) -> Load<'a> {
    let memory = region_over(guest);
    Box::new(move || {
        let highmem = Some(GuestAddress(START));
        let loaded = L::load(&memory, None, &mut Cursor::new(image), highmem);
        in_common(loaded.expect("a good image"))
    })
}

/// The crate's guest memory over the very bytes that the others load into.
fn region_over(guest: &mut [u8]) -> GuestMemoryMmap {
    let builder = MmapRegionBuilder::new(guest.len());
    // SAFETY: the bytes stay borrowed while the load lives that keeps the region, and whoever mapped them unmaps them.
    let builder = unsafe { builder.with_raw_mmap_pointer(guest.as_mut_ptr()) };
    let mapped = builder.build().expect("the bytes begin at a page");
    let region = GuestRegionMmap::new(mapped, GuestAddress(0)).expect("an address fits");
    GuestMemoryMmap::from_regions(vec![region]).expect("one region")
}

fn in_common(loaded: loader::KernelLoaderResult) -> KernelLoaderResult {
    use linux_loader::loader::elf::PvhBootCapability as Told;
    KernelLoaderResult {
        kernel_load: rekusoyen::GuestAddress(loaded.kernel_load.raw_value()),
        kernel_end: loaded.kernel_end,
        setup_header: loaded.setup_header.map(|header| {
            let bytes: [u8; 123] = header.as_slice().try_into().expect("123 bytes");
            bootparam::setup_header::from(bytes)
        }),
        pvh_boot_cap: match loaded.pvh_boot_cap {
            Told::PvhEntryPresent(address) => {
                PvhBootCapability::PvhEntryPresent(rekusoyen::GuestAddress(address.raw_value()))
            }
            Told::PvhEntryNotPresent => PvhBootCapability::PvhEntryNotPresent,
            Told::PvhEntryIgnored => PvhBootCapability::PvhEntryIgnored,
        },
    }
}
