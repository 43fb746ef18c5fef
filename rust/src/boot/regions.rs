//! A boot into the guest memory of the crate vm-memory. The library plans it over the map of the regions, and vm-memory
//! copies the pieces, which also marks its bitmap.

use vm_memory::{ByteValued, Bytes, GuestMemoryBackend};

use super::calls::Prepared;
use super::layout::Layout;
use super::{Boot, Booted, Entry, Error, Piece, Pvh, Span};
use crate::boot_page::{self, Addresses};
use crate::entry::PAGE_SIZE;
use crate::loader::bootparam::{boot_e820_entry, setup_header};
use crate::loader::elf::start_info::{
    hvm_memmap_table_entry, hvm_modlist_entry, hvm_start_info, XEN_HVM_START_MAGIC_VALUE,
};
use crate::loader::regions::map_of;
use crate::{GuestAddress, Refusal};

/// The fields of the setup header for an ELF image, which has none of its own.
const BOOT_FLAG: u16 = 0xaa55;
const HEADER: u32 = u32::from_le_bytes(*b"HdrS");
const ALIGNMENT: u32 = 16 << 20;

impl Boot<'_> {
    /// Puts all pieces into the guest memory of vm-memory, of any regions: those that touch are one range, and what
    /// lies between them are holes. Guest memory has at most 16 ranges apart from each other.
    ///
    /// Everything that can be refused is refused before anything is written. If then a region cannot be written, the
    /// error has no refusal, and the pieces before it are in guest memory.
    pub fn load_into<M: GuestMemoryBackend>(&self, guest_mem: &M) -> Result<Booted, Error> {
        let map = map_of(guest_mem);
        let prepared = Prepared::of(self);
        let layout = prepared.lay_out(&map)?;
        let answer = prepared.plan(&map, &layout);
        let booted = prepared.answer(answer, &layout)?;
        for (piece, address, bytes) in prepared.pieces(&booted, &layout)? {
            let span = Span::new(address, bytes.len() as u64);
            guest_mem
                .write_slice(&bytes, address)
                .map_err(|_| Error::not_written(piece, span))?;
        }
        Ok(booted)
    }
}

type Pieces<'a> = Vec<(Piece, GuestAddress, std::borrow::Cow<'a, [u8]>)>;

impl Prepared<'_> {
    /// The bytes of each piece of an accepted boot, in the order in which they are written. The parts of an ELF image
    /// may overlap, and a later one then overwrites.
    fn pieces(&self, booted: &Booted, to: &Layout) -> Result<Pieces<'_>, Error> {
        let parts = to.kernel.as_ref().map_or(&[][..], |plan| &plan.parts);
        let mut pieces: Pieces = parts
            .iter()
            .map(|part| {
                let from = part.place as usize;
                let bytes = &self.boot.image[from..from + part.size as usize];
                (Piece::Kernel, part.address, bytes.into())
            })
            .collect();
        if booted.boot_data_is != Piece::Tree {
            pieces.push((Piece::Line, booted.line.address, self.line().into()));
        }
        pieces.push((
            Piece::Ramdisk,
            booted.ramdisk.address,
            self.boot.ramdisk.into(),
        ));
        let data = match self.entry {
            Entry::ZeroPage(_) => {
                let page = self.page(booted);
                page.map_err(|refusal| Error::of(refusal, self, to))?.into()
            }
            Entry::Pvh(pvh) => self.start_block(pvh, booted).into(),
            Entry::Tree(tree) => tree.blob.into(),
        };
        pieces.push((booted.boot_data_is, booted.boot_data.address, data));
        // what has no bytes may be anywhere
        pieces.retain(|(_, _, bytes)| !bytes.is_empty());
        Ok(pieces)
    }

    /// The line with its zero.
    fn line(&self) -> Vec<u8> {
        let between: &[u8] = if self.init.is_empty() { b"" } else { b" -- " };
        [&self.text, between, self.init, b"\0"].concat()
    }

    /// The zero page, with the image's own setup header or that for an ELF image.
    fn page(&self, booted: &Booted) -> Result<Vec<u8>, Refusal> {
        let for_elf = setup_header {
            boot_flag: BOOT_FLAG,
            header: HEADER,
            kernel_alignment: ALIGNMENT,
            ..setup_header::default()
        };
        let rows = self.boot.rows.iter();
        let rows: Vec<_> = rows
            .map(|(address, size, kind)| boot_e820_entry {
                addr: address.0,
                size: *size,
                r#type: *kind,
            })
            .collect();
        // an accepted boot has its addresses and the size of its ramdisk below 4 GiB
        let addresses = Addresses {
            command_line: booted.line.address.0 as u32,
            ramdisk: booted.ramdisk.address.0 as u32,
            ramdisk_size: booted.ramdisk.size as u32,
        };
        let mut page = vec![0; PAGE_SIZE];
        let header = booted.kernel.setup_header.unwrap_or(for_elf);
        boot_page::build(&mut page, header, addresses, &rows)?;
        Ok(page)
    }

    /// The start block, the list of modules and the memory map, one after the other.
    fn start_block(&self, pvh: Pvh, booted: &Booted) -> Vec<u8> {
        let ramdisk = booted.ramdisk;
        let modules = (ramdisk.size > 0).then(|| hvm_modlist_entry {
            paddr: ramdisk.address.0,
            size: ramdisk.size,
            ..Default::default()
        });
        let modules: Vec<u8> = modules
            .iter()
            .flat_map(ByteValued::as_slice)
            .copied()
            .collect();
        let modules_at = booted.boot_data.address.0 + std::mem::size_of::<hvm_start_info>() as u64;
        let block = hvm_start_info {
            magic: XEN_HVM_START_MAGIC_VALUE,
            version: 1,
            nr_modules: u32::from(!modules.is_empty()),
            modlist_paddr: modules_at,
            cmdline_paddr: booted.line.address.0,
            rsdp_paddr: pvh.rsdp.0,
            memmap_paddr: modules_at + modules.len() as u64,
            memmap_entries: self.boot.rows.len() as u32,
            ..Default::default()
        };
        let mut bytes = [block.as_slice(), &modules].concat();
        for (address, size, kind) in &self.boot.rows {
            let row = hvm_memmap_table_entry {
                addr: address.0,
                size: *size,
                type_: *kind,
                reserved: 0,
            };
            bytes.extend(row.as_slice());
        }
        bytes
    }
}
