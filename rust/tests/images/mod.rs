//! Images built from named fields, and the guest memory that the tests lend. It needs nothing but the standard library.

// each file of tests takes a part of it
#![allow(dead_code)]

pub const LOADABLE: u32 = 1;
pub const NOTE: u32 = 4;

/// Where the bytes of an image's segments begin; there is room for eight program headers before them.
pub const BODY: u64 = 0x200;

/// An ELF image: the fields that a load looks at, then the program headers, then the bytes of the segments.
#[derive(Clone)]
pub struct ElfImage {
    pub magic: [u8; 4],
    pub encoding: u8,
    pub e_entry: u64,
    pub e_phoff: u64,
    pub e_phentsize: u16,
    pub headers: Vec<ProgramHeader>,
    pub body: Vec<u8>,
}

#[derive(Clone, Copy, Default)]
pub struct ProgramHeader {
    pub p_type: u32,
    pub p_offset: u64,
    pub p_paddr: u64,
    pub p_filesz: u64,
    pub p_memsz: u64,
    pub p_align: u64,
}

impl ElfImage {
    /// An image that is entered at an address and has no segment.
    pub fn entered_at(e_entry: u64) -> Self {
        ElfImage {
            magic: *b"\x7fELF",
            encoding: 1,
            e_entry,
            e_phoff: 64,
            e_phentsize: 56,
            headers: Vec::new(),
            body: Vec::new(),
        }
    }

    /// .. with one more segment, of these bytes, which are all the memory that it has.
    pub fn with(mut self, p_type: u32, p_paddr: u64, bytes: &[u8]) -> Self {
        let count = bytes.len() as u64;
        self.headers.push(ProgramHeader {
            p_type,
            p_offset: BODY + self.body.len() as u64,
            p_paddr,
            p_filesz: count,
            p_memsz: count,
            p_align: 4,
        });
        self.body.extend(bytes);
        self
    }

    /// .. with the last program header edited.
    pub fn edited(mut self, edit: impl FnOnce(&mut ProgramHeader)) -> Self {
        edit(self.headers.last_mut().expect("a program header"));
        self
    }

    pub fn bytes(&self) -> Vec<u8> {
        let mut image = vec![0; BODY as usize];
        put(&mut image, 0, &self.magic);
        put(&mut image, 5, &[self.encoding]);
        put(&mut image, 24, &self.e_entry.to_le_bytes());
        put(&mut image, 32, &self.e_phoff.to_le_bytes());
        put(&mut image, 54, &self.e_phentsize.to_le_bytes());
        put(&mut image, 56, &(self.headers.len() as u16).to_le_bytes());
        for (header, place) in self.headers.iter().zip((64..).step_by(56)) {
            put(&mut image, place, &header.p_type.to_le_bytes());
            put(&mut image, place + 8, &header.p_offset.to_le_bytes());
            put(&mut image, place + 24, &header.p_paddr.to_le_bytes());
            put(&mut image, place + 32, &header.p_filesz.to_le_bytes());
            put(&mut image, place + 40, &header.p_memsz.to_le_bytes());
            put(&mut image, place + 48, &header.p_align.to_le_bytes());
        }
        image.extend(&self.body);
        image
    }
}

/// The header of a note: the sizes of its name and of its descriptor, and its type.
pub fn note_header(name_size: u32, descriptor_size: u32, kind: u32) -> Vec<u8> {
    [name_size, descriptor_size, kind]
        .map(u32::to_le_bytes)
        .concat()
}

/// A whole note, name and descriptor each followed by zeros up to a multiple of 4.
pub fn note(name: &[u8], kind: u32, descriptor: &[u8]) -> Vec<u8> {
    let mut bytes = note_header(name.len() as u32, descriptor.len() as u32, kind);
    for part in [name, descriptor] {
        bytes.extend(part);
        bytes.resize(bytes.len().next_multiple_of(4), 0);
    }
    bytes
}

/// The note that gives a PVH entry.
pub fn pvh_note(entry: u32) -> Vec<u8> {
    note(b"Xen\0", 18, &entry.to_le_bytes())
}

/// A bzImage: the fields of the setup header that a load looks at, and the kernel.
#[derive(Clone)]
pub struct BzImageFile {
    pub setup_sects: u8,
    pub magic: [u8; 4],
    pub version: u16,
    pub loadflags: u8,
    pub code32_start: u32,
    pub kernel: Vec<u8>,
}

impl BzImageFile {
    /// An image with one setup sector besides the first, for a kernel at an address.
    pub fn loaded_at(code32_start: u32, kernel: &[u8]) -> Self {
        BzImageFile {
            setup_sects: 1,
            magic: *b"HdrS",
            version: 0x20f,
            loadflags: 1,
            code32_start,
            kernel: kernel.to_vec(),
        }
    }

    /// How many bytes stand before the kernel.
    pub fn setup_size(&self) -> usize {
        let sectors = if self.setup_sects == 0 {
            4
        } else {
            self.setup_sects
        };
        (usize::from(sectors) + 1) * 512
    }

    pub fn bytes(&self) -> Vec<u8> {
        let mut image = vec![0; self.setup_size()];
        put(&mut image, 0x1f1, &[self.setup_sects]);
        put(&mut image, 0x202, &self.magic);
        put(&mut image, 0x206, &self.version.to_le_bytes());
        put(&mut image, 0x211, &[self.loadflags]);
        put(&mut image, 0x214, &self.code32_start.to_le_bytes());
        image.extend(&self.kernel);
        image
    }
}

fn put(bytes: &mut [u8], place: usize, value: &[u8]) {
    bytes[place..place + value.len()].copy_from_slice(value);
}

/// Guest memory of a size before a call. It has no zero, so that a written one shows.
pub fn fresh(size: usize) -> Vec<u8> {
    vec![0xee; size]
}

/// The same after a call that wrote these bytes to these addresses.
pub fn fresh_with(size: usize, written: &[(usize, &[u8])]) -> Vec<u8> {
    let mut guest = fresh(size);
    for (address, bytes) in written {
        put(&mut guest, *address, bytes);
    }
    guest
}

/// An arm64 Image: its header, and the bytes behind it.
pub fn arm64_image(text_offset: u64, image_size: u64, body: &[u8]) -> Vec<u8> {
    let mut image: Vec<u8> = (0..64).map(|place| 200 - place).collect();
    put(&mut image, 8, &text_offset.to_le_bytes());
    put(&mut image, 16, &image_size.to_le_bytes());
    put(&mut image, 24, &10u64.to_le_bytes());
    put(&mut image, 56, b"ARM\x64");
    image.extend(body);
    image
}
