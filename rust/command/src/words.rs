//! The words of a command line, as they are shown.

use rekusoyen::words::{words, Word};

/// A line for each word: where it starts and ends, its key, and its value if it has one. A closing zero or line feed, as a file has one,
/// is no part of the line.
pub fn shown(line: &[u8]) -> Result<String, String> {
    let line = line.strip_suffix(b"\n").unwrap_or(line);
    let line = line.strip_suffix(b"\0").unwrap_or(line);
    match words(line) {
        Ok(words) => Ok(words.map(in_words).collect()),
        Err(unclosed) => Err(format!(
            "refused {} {:?}\nthe quote at {} is not closed\ntry: a second quote where the value ends\n",
            unclosed.number(),
            unclosed.refusal(),
            unclosed.place
        )),
    }
}

fn in_words(word: Word) -> String {
    let (start, end) = (word.start, word.start + word.text.len());
    let key = word.key.escape_ascii().to_string();
    let value = word.value.map_or(String::new(), |value| {
        format!(" value {}", value.escape_ascii())
    });
    // a quote needs no escape here
    format!("{start} {end} key {key}{value}\n").replace("\\\"", "\"")
}

#[cfg(test)]
mod tests {
    use super::*;

    #[test]
    fn each_word_has_a_line() {
        let told = shown(b"quiet  a=\"b c\"\n").unwrap();
        assert_eq!(told, "0 5 key quiet\n7 14 key a value \"b c\"\n");
        assert_eq!(shown(b"").unwrap(), "");
        assert_eq!(shown(b"a\0").unwrap(), "0 1 key a\n");
        assert_eq!(shown(b"\x01=").unwrap(), "0 2 key \\x01 value \n");
    }

    #[test]
    fn an_unclosed_quote_is_refused() {
        let told = shown(b"a \"b").unwrap_err();
        assert!(told.starts_with("refused 71 UnclosedQuote\nthe quote at 2 is not closed\n"));
    }
}
