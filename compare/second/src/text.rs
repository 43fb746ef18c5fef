//! The tests of texts that go into a line.

use crate::Refusal;

const QUOTE: u8 = b'"';

/// The bytes that are trimmed at both ends of a slug: tab to carriage return, and the space.
fn is_blank(byte: u8) -> bool {
    matches!(byte, 9..=13 | 32)
}

/// `text` without the blank bytes at both ends.
pub fn trimmed(text: &[u8]) -> &[u8] {
    let mut left = text;
    while let [first, rest @ ..] = left {
        if !is_blank(*first) {
            break;
        }
        left = rest;
    }
    while let [rest @ .., last] = left {
        if !is_blank(*last) {
            break;
        }
        left = rest;
    }
    left
}

/// Refuses a byte that cannot be printed.
pub fn printable(text: &[u8]) -> Result<(), Refusal> {
    if text.iter().all(|byte| (32..=126).contains(byte)) {
        Ok(())
    } else {
        Err(Refusal::InvalidAscii)
    }
}

pub fn valid_key(key: &[u8]) -> Result<(), Refusal> {
    printable(key)?;
    if key.contains(&b' ') {
        return Err(Refusal::HasSpace);
    }
    if key.contains(&b'=') {
        return Err(Refusal::HasEquals);
    }
    Ok(())
}

pub fn valid_value(value: &[u8]) -> Result<(), Refusal> {
    printable(value)?;
    if inside(value).contains(&QUOTE) {
        return Err(Refusal::InvalidQuote);
    }
    if value.contains(&b' ') && !is_quoted(value) {
        return Err(Refusal::NoQuoteSpace);
    }
    Ok(())
}

/// The bytes strictly between the first and the last.
fn inside(value: &[u8]) -> &[u8] {
    match value {
        [_, inside @ .., _] => inside,
        _ => &[],
    }
}

/// Two bytes or more, with a quote at each end.
fn is_quoted(value: &[u8]) -> bool {
    value.len() >= 2 && value.first() == Some(&QUOTE) && value.last() == Some(&QUOTE)
}

#[cfg(test)]
mod tests {
    use super::*;

    #[test]
    fn trimming_takes_blanks_at_both_ends_alone() {
        assert_eq!(trimmed(b"\t\n\x0b\x0c\r a b \t"), b"a b");
        assert_eq!(trimmed(b" \t "), b"");
        assert_eq!(trimmed(b"\x08a\x0e"), b"\x08a\x0e");
        assert_eq!(trimmed(b""), b"");
    }

    #[test]
    fn printable_means_32_to_126() {
        for byte in 0..=255 {
            let wanted = (32..127).contains(&byte);
            assert_eq!(printable(&[b'a', byte]).is_ok(), wanted, "{byte}");
        }
    }

    #[test]
    fn a_key_is_tested_for_print_then_space_then_equals() {
        assert_eq!(valid_key(b"= \x1f"), Err(Refusal::InvalidAscii));
        assert_eq!(valid_key(b"= "), Err(Refusal::HasSpace));
        assert_eq!(valid_key(b"="), Err(Refusal::HasEquals));
        assert_eq!(valid_key(b""), Ok(()));
    }

    #[test]
    fn a_value_is_tested_for_print_then_quotes_then_spaces() {
        assert_eq!(valid_value(b"a\" \n"), Err(Refusal::InvalidAscii));
        assert_eq!(valid_value(b"a\" b"), Err(Refusal::InvalidQuote));
        assert_eq!(valid_value(b"a b"), Err(Refusal::NoQuoteSpace));
        assert_eq!(valid_value(b"\"a b"), Err(Refusal::NoQuoteSpace));
        assert_eq!(valid_value(b"\"a b\""), Ok(()));
        assert_eq!(valid_value(b"\"\"\""), Err(Refusal::InvalidQuote));
        assert_eq!(valid_value(b"\"a"), Ok(()));
        assert_eq!(valid_value(b"\""), Ok(()));
        assert_eq!(valid_value(b" "), Err(Refusal::NoQuoteSpace));
    }
}
