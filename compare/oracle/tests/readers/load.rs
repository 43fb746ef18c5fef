// A load by a crate of the published names, `program`. It is compiled once for each crate.

use program::loader::{BzImage, Elf, KernelLoader};

pub fn load(image: &mut Reader, is_elf: bool) -> Told {
    let memory = memory();
    let loaded = if is_elf {
        Elf::load(&memory, None, image, None)
    } else {
        BzImage::load(&memory, None, image, None)
    };
    let told = loaded
        .map(|kernel| (kernel.kernel_load.0, kernel.kernel_end))
        .map_err(|error| format!("{error:?}"));
    (told, content(&memory))
}
