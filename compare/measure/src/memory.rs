//! Memory that begins at a page, as a mapped file or a guest's memory does.

use std::ops::{Deref, DerefMut};

/// A multiple of every usual page size.
const ALIGNMENT: usize = 1 << 16;

/// How many bytes of guest memory a load gets. The allocator maps so large a piece anew each time, and gives it back at its end.
pub const GUEST: usize = 64 << 20;

pub struct Memory {
    bytes: Vec<u8>,
    start: usize,
    length: usize,
}

impl Memory {
    /// Zeros. Of a large piece the system has given no page yet: each costs a fault at its first touch.
    pub fn untouched(length: usize) -> Memory {
        let bytes = vec![0; length + ALIGNMENT];
        let start = bytes.as_ptr().align_offset(ALIGNMENT);
        Memory {
            bytes,
            start,
            length,
        }
    }

    /// The same byte everywhere, so that every page is there.
    pub fn filled(length: usize, byte: u8) -> Memory {
        let mut memory = Memory::untouched(length);
        memory.fill(byte);
        memory
    }
}

impl From<&[u8]> for Memory {
    fn from(content: &[u8]) -> Memory {
        let mut memory = Memory::untouched(content.len());
        memory.copy_from_slice(content);
        memory
    }
}

impl PartialEq for Memory {
    fn eq(&self, other: &Memory) -> bool {
        **self == **other
    }
}

impl Deref for Memory {
    type Target = [u8];

    fn deref(&self) -> &[u8] {
        &self.bytes[self.start..self.start + self.length]
    }
}

impl DerefMut for Memory {
    fn deref_mut(&mut self) -> &mut [u8] {
        &mut self.bytes[self.start..self.start + self.length]
    }
}
