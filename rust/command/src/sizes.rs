//! Sizes and addresses as people write them: 4096, 64M, 0x100000.

/// What a letter behind a decimal number multiplies it by.
const SUFFIXES: [(char, u64); 4] = [
    ('K', 1 << 10),
    ('M', 1 << 20),
    ('G', 1 << 30),
    ('T', 1 << 40),
];

/// The number that a text gives: hexadecimal behind `0x`, else decimal with one letter for a multiple of 1,024. `None` where it is no
/// such text, or 2^64 or more.
pub fn number(text: &str) -> Option<u64> {
    if let Some(digits) = text.strip_prefix("0x").or_else(|| text.strip_prefix("0X")) {
        return whole(digits, 16);
    }
    let last = text.chars().next_back()?.to_ascii_uppercase();
    match SUFFIXES.iter().find(|suffix| suffix.0 == last) {
        Some((_, multiple)) => whole(&text[..text.len() - 1], 10)?.checked_mul(*multiple),
        None => whole(text, 10),
    }
}

/// A size as people read it: in T, G, M or K if it is a multiple of one, else in bytes.
pub fn shown(size: u64) -> String {
    let suffix = SUFFIXES
        .iter()
        .rev()
        .find(|(_, multiple)| size % multiple == 0);
    match suffix {
        Some((letter, multiple)) if size > 0 => format!("{}{letter}", size / multiple),
        _ if size == 1 => "1 byte".to_string(),
        _ => format!("{size} bytes"),
    }
}

/// Digits alone: the standard library would take a sign as well.
fn whole(digits: &str, base: u32) -> Option<u64> {
    if digits.starts_with('+') {
        return None;
    }
    u64::from_str_radix(digits, base).ok()
}

#[cfg(test)]
mod tests {
    use super::{number, shown};

    #[test]
    fn sizes_are_shown_by_the_largest_that_divides_them() {
        for (size, text) in [
            (0, "0 bytes"),
            (1, "1 byte"),
            (1023, "1023 bytes"),
            (1024, "1K"),
            (1536, "1536 bytes"),
            (3 << 20, "3M"),
            ((1 << 30) + (1 << 10), "1048577K"),
            (5 << 40, "5T"),
            (u64::MAX, "18446744073709551615 bytes"),
        ] {
            assert_eq!(shown(size), text);
        }
    }

    #[test]
    fn numbers_are_understood() {
        for (text, expected) in [
            ("0", 0),
            ("4096", 4096),
            ("16k", 16 << 10),
            ("64M", 64 << 20),
            ("1G", 1 << 30),
            ("16777215T", ((1 << 24) - 1) << 40),
            ("0x100000", 0x100000),
            ("0XffffFFFFffffFFFF", u64::MAX),
            ("18446744073709551615", u64::MAX),
        ] {
            assert_eq!(number(text), Some(expected), "{text}");
        }
    }

    #[test]
    fn others_are_not() {
        for text in [
            "",
            "M",
            "0x",
            "-1",
            "+1",
            "+1M",
            "0x+1",
            "1.5G",
            "64MB",
            "6 4",
            "0x10M",
            "é",
            "64Ä",
            "18446744073709551616",
            "16777216T",
            "0x10000000000000000",
        ] {
            assert_eq!(number(text), None, "{text}");
        }
    }
}
