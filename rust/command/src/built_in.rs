//! The built-in image: a small ELF kernel with one segment and a PVH note.

const TABLE: u64 = 64;
const HEADER_SIZE: u64 = 56;
const KERNEL: &[u8] = b"kernel";
const KERNEL_ADDRESS: u64 = 0x20;
const KERNEL_MEMORY: u64 = 0x10;
const PVH_ENTRY: u32 = 0x20;

/// How much guest memory shows all of it.
pub const GUEST: usize = 0x40;

/// The bytes of the image.
pub fn image() -> Vec<u8> {
    let note = note();
    let kernel_place = TABLE + 2 * HEADER_SIZE;
    let note_place = kernel_place + KERNEL.len() as u64;

    let mut image = b"\x7fELF\x02\x01\x01".to_vec();
    image.resize(TABLE as usize, 0);
    put(&mut image, 24, &KERNEL_ADDRESS.to_le_bytes()); // entry
    put(&mut image, 32, &TABLE.to_le_bytes());
    put(&mut image, 54, &(HEADER_SIZE as u16).to_le_bytes());
    put(&mut image, 56, &2u16.to_le_bytes()); // how many program headers

    image.extend(program_header(
        1,
        kernel_place,
        KERNEL_ADDRESS,
        KERNEL.len() as u64,
        KERNEL_MEMORY,
    ));
    image.extend(program_header(4, note_place, 0, note.len() as u64, 0));
    image.extend(KERNEL);
    image.extend(note);
    image
}

fn program_header(
    p_type: u32,
    place: u64,
    address: u64,
    file_size: u64,
    memory_size: u64,
) -> Vec<u8> {
    let mut header = vec![0; HEADER_SIZE as usize];
    put(&mut header, 0, &p_type.to_le_bytes());
    for (at, value) in [
        (8, place),
        (24, address),
        (32, file_size),
        (40, memory_size),
    ] {
        put(&mut header, at, &value.to_le_bytes());
    }
    header
}

/// The note that gives the PVH entry: sizes of name and descriptor, type, name, descriptor.
fn note() -> Vec<u8> {
    let numbers = [4, 4, 18].map(u32::to_le_bytes).concat();
    [&numbers[..], b"Xen\0", &PVH_ENTRY.to_le_bytes()].concat()
}

fn put(bytes: &mut [u8], at: usize, value: &[u8]) {
    bytes[at..at + value.len()].copy_from_slice(value);
}
