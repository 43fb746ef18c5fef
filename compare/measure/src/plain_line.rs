//! Plain Rust command lines, written for this measurement, with the library's tests: one of boot arguments alone that grows in a `String`, and
//! one that is made from its whole text.

use crate::images::CAPACITY;
use rekusoyen::cmdline::{Error, Result};

pub struct Line {
    text: String,
    capacity: usize,
}

impl Line {
    pub fn new(capacity: usize) -> Result<Line> {
        if capacity == 0 || capacity > CAPACITY {
            return Err(Error::InvalidCapacity);
        }
        let text = String::with_capacity(capacity);
        Ok(Line { text, capacity })
    }

    pub fn insert(&mut self, key: &str, value: &str) -> Result<()> {
        test_key(key)?;
        test_value(value)?;
        let space = usize::from(!self.text.is_empty());
        // the equals sign, and the closing zero
        let size = self.text.len() + space + key.len() + 1 + value.len() + 1;
        if size > self.capacity {
            return Err(Error::TooLarge);
        }
        if space == 1 {
            self.text.push(' ');
        }
        self.text.push_str(key);
        self.text.push('=');
        self.text.push_str(value);
        Ok(())
    }

    pub fn text(&self) -> &str {
        &self.text
    }
}

/// The two texts of a line.
pub struct Parts {
    boot: String,
    init: String,
}

impl Parts {
    pub fn parse(text: &str, capacity: usize) -> Result<Parts> {
        let at = split(text.as_bytes());
        let boot = text[..at].trim_matches(blank);
        let init = text[at..].get(4..).unwrap_or("").trim_matches(blank);
        let with_init = if init.is_empty() { 0 } else { 4 + init.len() };
        if capacity == 0 || capacity > CAPACITY || boot.len() + 1 + with_init > capacity {
            return Err(Error::InvalidCapacity);
        }
        let (boot, init) = (boot.to_string(), init.to_string());
        Ok(Parts { boot, init })
    }

    fn test(&self) -> Result<()> {
        if !self.init.is_empty() && self.boot.is_empty() {
            return Err(Error::NoBootArgsInserted);
        }
        if self
            .boot
            .bytes()
            .chain(self.init.bytes())
            .any(|byte| byte == 0)
        {
            return Err(Error::NullTerminator);
        }
        Ok(())
    }

    /// The pieces of the written line.
    fn pieces(&self) -> [&[u8]; 4] {
        let between: &[u8] = if self.init.is_empty() { b"" } else { b" -- " };
        [self.boot.as_bytes(), between, self.init.as_bytes(), b"\0"]
    }

    pub fn written(&self) -> Result<Vec<u8>> {
        self.test()?;
        Ok(self.pieces().concat())
    }

    /// Puts the written line to the start of guest memory, which has room for it.
    pub fn put(&self, guest: &mut [u8]) -> Result<()> {
        self.test()?;
        let mut at = 0;
        for piece in self.pieces() {
            guest[at..at + piece.len()].copy_from_slice(piece);
            at += piece.len();
        }
        Ok(())
    }
}

fn blank(c: char) -> bool {
    matches!(c, '\t'..='\r' | ' ')
}

/// The place of the first separator with an even number of quotes before it, or the length.
fn split(text: &[u8]) -> usize {
    let mut even = true;
    for (at, &byte) in text.iter().enumerate() {
        if even && text[at..].starts_with(b" -- ") {
            return at;
        }
        even ^= byte == b'"';
    }
    text.len()
}

fn test_key(key: &str) -> Result<()> {
    test_bytes(key)?;
    if key.contains(' ') {
        return Err(Error::HasSpace);
    }
    if key.contains('=') {
        return Err(Error::HasEquals);
    }
    Ok(())
}

fn test_value(value: &str) -> Result<()> {
    test_bytes(value)?;
    let bytes = value.as_bytes();
    if bytes.len() > 2 && bytes[1..bytes.len() - 1].contains(&b'"') {
        return Err(Error::InvalidQuote);
    }
    let quoted = bytes.len() > 1 && value.starts_with('"') && value.ends_with('"');
    if value.contains(' ') && !quoted {
        return Err(Error::NoQuoteSpace);
    }
    Ok(())
}

/// All bytes can be printed.
fn test_bytes(text: &str) -> Result<()> {
    if text.bytes().all(|byte| matches!(byte, b' '..=b'~')) {
        Ok(())
    } else {
        Err(Error::InvalidAscii)
    }
}

#[cfg(test)]
mod tests {
    use super::*;
    use rekusoyen::cmdline::Cmdline;

    #[test]
    fn insertions_are_the_librarys() {
        let texts = [
            "",
            "a",
            "\"",
            "\"\"",
            "\"b\"",
            "\"b c\"",
            "d e",
            "f=",
            "g\"h",
            "\n",
            "é",
            "0123456789",
        ];
        for capacity in [1, 8, 40, CAPACITY] {
            let mut plain = Line::new(capacity).unwrap();
            let mut library = Cmdline::new(capacity).unwrap();
            for key in texts {
                for value in texts {
                    assert_eq!(plain.insert(key, value), library.insert(key, value));
                    let written = library.as_cstring().unwrap();
                    assert_eq!(plain.text().as_bytes(), written.as_bytes());
                }
            }
        }
    }

    #[test]
    fn parts_are_the_librarys() {
        let texts = [
            "",
            " ",
            " -- ",
            "a",
            " a -- b ",
            "a -- b -- c",
            "\"a -- b\" -- c",
            "-- a",
            " -- a",
            "a\0b",
            "a\t--\tb",
        ];
        for capacity in [0, 1, 4, 16, CAPACITY, CAPACITY + 1] {
            for text in texts {
                let library = Cmdline::try_from(text, capacity);
                let plain = Parts::parse(text, capacity);
                assert_eq!(plain.as_ref().map(|_| ()), library.as_ref().map(|_| ()));
                if let (Ok(plain), Ok(library)) = (plain, library) {
                    let written = library.as_cstring().map(|line| line.into_bytes_with_nul());
                    assert_eq!(plain.written(), written);
                }
            }
        }
    }

    #[test]
    fn capacities_are_the_librarys() {
        for capacity in [0, 1, CAPACITY, CAPACITY + 1] {
            let plain = Line::new(capacity).map(|_| ());
            assert_eq!(plain, Cmdline::new(capacity).map(|_| ()));
        }
    }
}
