//! The image, from standard input, and guest memory.

use std::ffi::{c_int, c_void};
use std::io::{self, Read};

use crate::progress;

/// How many bytes are read between two looks at the progress line.
const PIECE: u64 = 1 << 20;

/// No kernel is longer, and what never ends shall not take all memory.
pub const LONGEST: usize = 4 << 30;

/// All bytes of a reader, if they are no more than the longest. While a large image comes in, a line on standard error says how far it
/// is, if somebody looks.
pub fn image(mut reader: impl Read, longest: usize) -> io::Result<Vec<u8>> {
    let mut image = Vec::new();
    let mut line = progress::on_terminal();
    loop {
        let read = reader.by_ref().take(PIECE).read_to_end(&mut image)?;
        if image.len() > longest {
            return Err(io::Error::other(format!(
                "it has more than {longest} bytes"
            )));
        }
        if (read as u64) < PIECE {
            return Ok(image);
        }
        line.show("read", image.len() as u64);
    }
}

/// Guest memory of zeros. Of a large one the system keeps only the pages that are written, where it gives memory lazily.
pub struct Guest {
    start: *mut u8,
    size: usize,
}

const PROT_READ_WRITE: c_int = 1 | 2;
// as Linux numbers them, on x86-64 and on Arm alike
const MAP_PRIVATE_ANONYMOUS: c_int = 0x2 | 0x20;
const MAP_NORESERVE: c_int = 0x4000;
const MAP_FAILED: usize = usize::MAX;

extern "C" {
    fn mmap(
        place: *mut c_void,
        size: usize,
        protection: c_int,
        flags: c_int,
        file: c_int,
        offset: i64,
    ) -> *mut c_void;
    fn munmap(place: *mut c_void, size: usize) -> c_int;
}

impl Guest {
    /// Guest memory of a size, if the system gives so much.
    pub fn new(size: u64) -> Option<Guest> {
        let size = usize::try_from(size)
            .ok()
            .filter(|size| *size <= isize::MAX as usize)?;
        if size == 0 {
            // a mapping has a byte or more
            let start = std::ptr::NonNull::dangling().as_ptr();
            return Some(Guest { start, size });
        }
        let flags = MAP_PRIVATE_ANONYMOUS | MAP_NORESERVE;
        // SAFETY: a new mapping at a place of the system's choice; it touches nothing else.
        let start = unsafe { mmap(std::ptr::null_mut(), size, PROT_READ_WRITE, flags, -1, 0) };
        (start as usize != MAP_FAILED).then_some(Guest {
            start: start.cast(),
            size,
        })
    }

    pub fn bytes(&mut self) -> &mut [u8] {
        // SAFETY: the mapping has so many bytes, each of them a 0 at first, is this value's alone and lives as long; without bytes the
        // pointer is dangling, as it may be.
        unsafe { std::slice::from_raw_parts_mut(self.start, self.size) }
    }
}

impl Drop for Guest {
    fn drop(&mut self) {
        if self.size > 0 {
            // SAFETY: the mapping was made by `new`, and nobody has its bytes any more.
            unsafe { munmap(self.start.cast(), self.size) };
        }
    }
}

#[cfg(test)]
mod tests {
    use super::*;

    #[test]
    fn an_image_is_read_whole() {
        for length in [
            0,
            1,
            PIECE as usize - 1,
            PIECE as usize,
            2 * PIECE as usize + 5,
        ] {
            let bytes: Vec<u8> = (0..length).map(|i| i as u8).collect();
            assert_eq!(image(&bytes[..], length).unwrap(), bytes);
        }
    }

    #[test]
    fn what_never_ends_is_given_up() {
        let error = image(io::repeat(0), 5 << 20).unwrap_err();
        assert_eq!(error.to_string(), "it has more than 5242880 bytes");
    }

    #[test]
    fn guest_memory_is_zero_or_refused() {
        assert_eq!(Guest::new(0).unwrap().bytes(), []);
        assert_eq!(Guest::new(100).unwrap().bytes(), [0; 100]);
        assert!(Guest::new(u64::MAX).is_none());
        assert!(Guest::new(i64::MAX as u64).is_none());
    }

    #[test]
    fn much_guest_memory_is_given_lazily() {
        let mut guest = Guest::new(1 << 40).expect("a system that gives memory lazily");
        let bytes = guest.bytes();
        assert_eq!(
            (bytes.len(), bytes[0], bytes[(1 << 40) - 1]),
            (1 << 40, 0, 0)
        );
        bytes[(1 << 40) - 1] = 7;
        assert_eq!(bytes[(1 << 40) - 1], 7);
    }
}
