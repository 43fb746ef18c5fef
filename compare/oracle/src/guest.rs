//! Guest memory of the published crate's kind: one region from address 0, or a region for each range of a map.

use std::collections::HashMap;
use vm_memory::mmap::MmapRegionBuilder;
use vm_memory::{
    Address, Bytes, GuestAddress, GuestMemoryBackend, GuestMemoryMmap, GuestMemoryRegion,
    GuestRegionMmap, MmapRegion,
};

/// Mapping memory costs far more than a load, so that a region is made once for each length and used again, and the regions of a map are
/// laid over memory that is mapped once.
#[derive(Default)]
pub struct Guests {
    by_length: HashMap<usize, GuestMemoryMmap>,
    /// Guest memory of the map that was asked last, dropped before what it lies over.
    of_map: Option<GuestMemoryMmap>,
    /// The memory of the first range of any map, of the second, and so on.
    under_ranges: Vec<MmapRegion>,
}

/// How many bytes a range of a map has at most.
const LONGEST_RANGE: usize = 1 << 20;

impl Guests {
    /// Guest memory with this content and a map: there must be a range, and all must be good.
    pub fn holding(&mut self, content: &[u8], map: Option<&[u64]>) -> &GuestMemoryMmap {
        let memory = match map {
            Some(numbers) => self.over(numbers),
            None => self.whole(content.len()),
        };
        for region in memory.iter() {
            let part = &content[place(region)..][..region.len() as usize];
            memory
                .write_slice(part, region.start_addr())
                .expect("the content fits");
        }
        memory
    }

    fn whole(&mut self, length: usize) -> &GuestMemoryMmap {
        self.by_length.entry(length).or_insert_with(|| {
            let region = (GuestAddress(0), length);
            GuestMemoryMmap::from_ranges(&[region]).expect("memory can be mapped")
        })
    }

    fn over(&mut self, numbers: &[u64]) -> &GuestMemoryMmap {
        let ranges = numbers.chunks_exact(2);
        while self.under_ranges.len() < ranges.len() {
            let under = MmapRegion::new(LONGEST_RANGE).expect("memory can be mapped");
            self.under_ranges.push(under);
        }
        let region = |(range, under): (&[u64], &MmapRegion)| {
            let size = range[1] as usize;
            assert!(size <= LONGEST_RANGE, "a range of a question is short");
            let builder = MmapRegionBuilder::new(size);
            // SAFETY: what is mapped is longer, and stays mapped for as long as `self` lives, which has the region.
            let builder = unsafe { builder.with_raw_mmap_pointer(under.as_ptr()) };
            let mapped = builder.build().expect("what is mapped begins at a page");
            GuestRegionMmap::new(mapped, GuestAddress(range[0])).expect("an address fits")
        };
        let regions = ranges.zip(&self.under_ranges).map(region).collect();
        let memory = GuestMemoryMmap::from_regions(regions).expect("the ranges rise");
        self.of_map.insert(memory)
    }
}

/// Where a region's first byte stands in the slice.
fn place(region: &GuestRegionMmap) -> usize {
    region.start_addr().raw_value() as usize
}

/// What guest memory holds, in a slice that had this content before; where there is no region it is as it was.
pub fn content(memory: &GuestMemoryMmap, before: &[u8]) -> Vec<u8> {
    let mut bytes = before.to_vec();
    for region in memory.iter() {
        let part = &mut bytes[place(region)..][..region.len() as usize];
        memory
            .read_slice(part, region.start_addr())
            .expect("the region has this length");
    }
    bytes
}
