//! The kernel command line: boot text, and init text behind a separator.

use crate::device::device_text;
use crate::separator::{parted, SEPARATOR};
use crate::text::{printable, trimmed, valid_key, valid_value};
use crate::Refusal;

/// The greatest capacity, the closing zero counted.
pub const CAPACITY_LIMIT: u64 = 16384;

#[derive(Clone, Debug)]
pub struct Line {
    capacity: usize,
    boot: Vec<u8>,
    init: Vec<u8>,
}

impl Line {
    pub fn new(capacity: u64) -> Result<Line, Refusal> {
        if capacity == 0 || capacity > CAPACITY_LIMIT {
            return Err(Refusal::InvalidCapacity);
        }
        Ok(Line {
            capacity: capacity as usize,
            boot: Vec::new(),
            init: Vec::new(),
        })
    }

    /// A line from its whole text. The text is not tested, beyond that it must fit.
    pub fn try_from(text: &[u8], capacity: u64) -> Result<Line, Refusal> {
        let mut line = Line::new(capacity)?;
        let (boot, init) = parted(text);
        line.boot = trimmed(boot).to_vec();
        line.init = trimmed(init).to_vec();
        if line.counted_size() > line.capacity {
            return Err(Refusal::InvalidCapacity);
        }
        Ok(line)
    }

    /// The line of two texts as they are, of any length.
    pub fn of_texts(boot: &[u8], init: &[u8]) -> Line {
        Line {
            capacity: usize::MAX,
            boot: boot.to_vec(),
            init: init.to_vec(),
        }
    }

    /// What the texts take of the capacity, with the separator and the closing zero.
    pub fn counted_size(&self) -> usize {
        let mut size = self.boot.len() + 1;
        if !self.init.is_empty() {
            size += SEPARATOR.len() + self.init.len();
        }
        size
    }

    fn room_for(&self, more: usize) -> Result<(), Refusal> {
        if self.counted_size() + more > self.capacity {
            return Err(Refusal::TooLarge);
        }
        Ok(())
    }

    pub fn insert_str(&mut self, slug: &[u8]) -> Result<(), Refusal> {
        let slug = trimmed(slug);
        printable(slug)?;
        let space = if self.boot.is_empty() { 0 } else { 1 };
        self.room_for(space + slug.len())?;
        append(&mut self.boot, slug);
        Ok(())
    }

    pub fn insert_init_args(&mut self, slug: &[u8]) -> Result<(), Refusal> {
        let slug = trimmed(slug);
        printable(slug)?;
        // the separator of 4 bytes, or a space behind earlier init text
        let joint = if self.init.is_empty() { 4 } else { 1 };
        self.room_for(joint + slug.len())?;
        append(&mut self.init, slug);
        Ok(())
    }

    pub fn insert(&mut self, key: &[u8], value: &[u8]) -> Result<(), Refusal> {
        valid_key(key)?;
        valid_value(value)?;
        self.insert_str(&[key, b"=", value].concat())
    }

    /// Inserts a key with several values. `ends` says where each value ends in `values`.
    pub fn insert_multiple(
        &mut self,
        key: &[u8],
        ends: &[u32],
        values: &[u8],
    ) -> Result<(), Refusal> {
        let parts = parts(ends, values)?;
        valid_key(key)?;
        if parts.is_empty() {
            return Err(Refusal::MissingVal);
        }
        for part in &parts {
            valid_value(part)?;
        }
        self.insert_str(&[key, b"=", &parts.join(&b","[..])].concat())
    }

    pub fn add_virtio_mmio_device(
        &mut self,
        size: u64,
        address: u64,
        irq: u32,
        id: Option<u32>,
    ) -> Result<(), Refusal> {
        self.insert_str(&device_text(size, address, irq, id)?)
    }

    /// The written line with its closing zero.
    pub fn written(&self) -> Result<Vec<u8>, Refusal> {
        if self.boot.is_empty() && !self.init.is_empty() {
            return Err(Refusal::NoBootArgsInserted);
        }
        let mut text = self.boot.clone();
        if !self.init.is_empty() {
            text.extend(SEPARATOR);
            text.extend(&self.init);
        }
        if text.contains(&0) {
            return Err(Refusal::NullTerminator);
        }
        text.push(0);
        Ok(text)
    }

    /// Writes the line into the lent output, and answers how many bytes that took.
    pub fn write_to(&self, output: &mut [u8]) -> Result<usize, Refusal> {
        let text = self.written()?;
        if output.len() < text.len() {
            return Err(Refusal::NoRoom);
        }
        output[..text.len()].copy_from_slice(&text);
        Ok(text.len())
    }
}

/// Lines are equal when what they would write is, refusals included.
impl PartialEq for Line {
    fn eq(&self, other: &Line) -> bool {
        self.written() == other.written()
    }
}

/// Puts a slug behind a part's text. An empty slug still costs a space where there is text.
fn append(part: &mut Vec<u8>, slug: &[u8]) {
    if !part.is_empty() {
        part.push(b' ');
    }
    part.extend(slug);
}

/// The values that a list of ends cuts out of one buffer.
fn parts<'a>(ends: &[u32], values: &'a [u8]) -> Result<Vec<&'a [u8]>, Refusal> {
    let mut parts = Vec::new();
    let mut start = 0;
    for end in ends.iter().map(|end| *end as usize) {
        if end < start || end > values.len() {
            return Err(Refusal::BadList);
        }
        parts.push(&values[start..end]);
        start = end;
    }
    if !ends.is_empty() && start != values.len() {
        return Err(Refusal::BadList);
    }
    Ok(parts)
}

#[cfg(test)]
mod tests {
    use super::*;

    fn line(capacity: u64, boot: &str) -> Line {
        let mut line = Line::new(capacity).unwrap();
        line.insert_str(boot.as_bytes()).unwrap();
        line
    }

    fn text(line: &Line) -> String {
        String::from_utf8(line.written().unwrap()).unwrap()
    }

    #[test]
    fn capacities_run_from_1_to_16384() {
        for (capacity, accepted) in [(0, false), (1, true), (16384, true), (16385, false)] {
            assert_eq!(Line::new(capacity).is_ok(), accepted);
            assert_eq!(Line::try_from(b"", capacity).is_ok(), accepted);
        }
    }

    #[test]
    fn a_key_and_value_must_fit_with_the_zero() {
        let mut line = Line::new(8).unwrap();
        assert_eq!(line.insert(b"foo", b"bar"), Ok(()));
        assert_eq!(text(&line), "foo=bar\0");
        let mut line = Line::new(7).unwrap();
        assert_eq!(line.insert(b"foo", b"bar"), Err(Refusal::TooLarge));
        assert_eq!(text(&line), "\0");
    }

    #[test]
    fn an_empty_slug_costs_a_space_on_text() {
        let mut wide = line(3, "a");
        assert_eq!(wide.insert_str(b" \t"), Ok(()));
        assert_eq!(text(&wide), "a \0");
        assert_eq!(line(2, "a").insert_str(b""), Err(Refusal::TooLarge));
        assert_eq!(Line::new(1).unwrap().insert_str(b""), Ok(()));
    }

    #[test]
    fn an_empty_init_slug_needs_room_for_the_separator_and_changes_nothing() {
        let mut wide = line(6, "a");
        assert_eq!(wide.insert_init_args(b""), Ok(()));
        assert_eq!(text(&wide), "a\0");
        assert_eq!(line(5, "a").insert_init_args(b""), Err(Refusal::TooLarge));
    }

    #[test]
    fn the_separator_is_charged_once() {
        let mut line = line(9, "a");
        assert_eq!(line.insert_init_args(b"b"), Ok(()));
        assert_eq!(line.insert_init_args(b"c"), Ok(()));
        assert_eq!(line.insert_init_args(b""), Err(Refusal::TooLarge));
        assert_eq!(text(&line), "a -- b c\0");
    }

    #[test]
    fn a_whole_text_is_parted_and_trimmed() {
        let line = Line::try_from(b" a=\"x -- y\"  -- z\n", 16).unwrap();
        assert_eq!(text(&line), "a=\"x -- y\" -- z\0");
        let refused = Line::try_from(b"a=\"x -- y\" -- z", 15);
        assert_eq!(refused.unwrap_err(), Refusal::InvalidCapacity);
        assert_eq!(text(&Line::try_from(b"a -- ", 2).unwrap()), "a\0");
    }

    #[test]
    fn values_are_joined_by_commas() {
        let mut line = Line::new(64).unwrap();
        assert_eq!(line.insert_multiple(b"k", &[1, 1, 3], b"abc"), Ok(()));
        assert_eq!(text(&line), "k=a,,bc\0");
    }

    #[test]
    fn a_list_is_looked_at_before_the_key_and_an_empty_one_after() {
        let mut line = Line::new(64).unwrap();
        let bad = Err(Refusal::BadList);
        assert_eq!(line.insert_multiple(b" ", &[2, 1], b"abc"), bad);
        assert_eq!(line.insert_multiple(b" ", &[2], b"abc"), bad);
        assert_eq!(line.insert_multiple(b" ", &[4], b"abc"), bad);
        assert_eq!(
            line.insert_multiple(b" ", &[], b"abc"),
            Err(Refusal::HasSpace)
        );
        assert_eq!(
            line.insert_multiple(b"k", &[], b"abc"),
            Err(Refusal::MissingVal)
        );
        assert_eq!(line.insert_multiple(b"k", &[0], b""), Ok(()));
    }

    #[test]
    fn writing_refuses_init_text_alone_then_zeros_then_a_short_output() {
        let only_init = Line::try_from(b" -- \0", 64).unwrap();
        assert_eq!(
            only_init.write_to(&mut []),
            Err(Refusal::NoBootArgsInserted)
        );
        let zero = Line::try_from(b"a -- \0", 64).unwrap();
        assert_eq!(zero.write_to(&mut []), Err(Refusal::NullTerminator));
        let mut output = [7; 3];
        assert_eq!(line(64, "abc").write_to(&mut output), Err(Refusal::NoRoom));
        assert_eq!(output, [7; 3]);
        assert_eq!(line(64, "a").write_to(&mut output), Ok(2));
        assert_eq!(output, [b'a', 0, 7]);
    }

    #[test]
    fn lines_that_write_the_same_are_equal() {
        assert_eq!(line(64, "a"), line(4, "a"));
        assert_eq!(line(64, "a"), line(64, " a "));
        assert_ne!(line(64, "a"), line(64, "b"));
    }

    #[test]
    fn all_init_only_lines_are_equal() {
        let first = Line::try_from(b" -- x", 64).unwrap();
        let other = Line::try_from(b" -- y", 32).unwrap();
        assert_eq!(first, other);
        assert_ne!(first, Line::new(64).unwrap());
    }
}
