//! Where a whole line parts into boot text and init text.

pub const SEPARATOR: &[u8; 4] = b" -- ";

/// The boot text and the init text of a whole line, parted at the first separator that stands outside quotes, which is one with
/// an even number of quotes before it.
pub fn parted(text: &[u8]) -> (&[u8], &[u8]) {
    let mut quotes = 0;
    for place in 0..text.len() {
        if text[place..].starts_with(SEPARATOR) && quotes % 2 == 0 {
            return (&text[..place], &text[place + SEPARATOR.len()..]);
        }
        if text[place] == b'"' {
            quotes += 1;
        }
    }
    (text, &[])
}

#[cfg(test)]
mod tests {
    use super::*;

    fn check(text: &str, boot: &str, init: &str) {
        assert_eq!(parted(text.as_bytes()), (boot.as_bytes(), init.as_bytes()));
    }

    #[test]
    fn the_first_separator_outside_quotes_parts() {
        check("a -- b -- c", "a", "b -- c");
        check("a=\"x -- y\" -- z", "a=\"x -- y\"", "z");
        check("\"a -- b", "\"a -- b", "");
        check("a --b -- ", "a --b", "");
        check(" -- -- ", "", "-- ");
        check("a--b", "a--b", "");
    }
}
