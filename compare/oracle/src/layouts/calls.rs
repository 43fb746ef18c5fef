// Loads by a crate of the published names, `program`; what they tell in one form. It is compiled once for each crate.

use program::loader::{load_cmdline, BzImage, Cmdline, Elf, KernelLoader, KernelLoaderResult};

/// Loads an image, or puts a line, into guest memory.
pub fn put<F: Read + ReadVolatile + Seek>(memory: &GuestMemoryMmap, put: &Put, image: &mut F) -> Told {
    match &put.what {
        What::Elf => told(Elf::load(memory, put.offset, image, put.highmem)),
        What::BzImage => told(BzImage::load(memory, put.offset, image, put.highmem)),
        What::Line(text) => {
            let line = Cmdline::try_from(text, 4096).expect("a good line");
            let address = put.offset.expect("a line has an address");
            load_cmdline(memory, address, &line)
                .map(|()| String::new())
                .map_err(|error| format!("{error:?}"))
        }
    }
}

fn told(answer: program::loader::Result<KernelLoaderResult>) -> Told {
    let kernel = answer.map_err(|error| format!("{error:?}"))?;
    let header = kernel.setup_header.map(|header| header.as_slice().to_vec());
    Ok(format!(
        "{:x} {:x} {header:?} {:?}",
        kernel.kernel_load.0, kernel.kernel_end, kernel.pvh_boot_cap
    ))
}
