//! The words of a line, by the house rule: they part at runs of spaces, a double quote opens a stretch in which spaces do not part
//! them, the next one closes it, and the first equals sign outside quotes splits key from value.

use crate::Refusal;

/// Places in the line: the first byte, the one behind the last, and where the key ends.
#[derive(Clone, Copy, Debug, PartialEq, Eq)]
pub struct Word {
    pub start: usize,
    pub end: usize,
    pub split: usize,
}

/// The words of a line; or the place of the quote that none closes.
pub fn words(line: &[u8]) -> Result<Vec<Word>, usize> {
    let mut words = Vec::new();
    // the word that goes on: its start, and its first equals sign
    let mut going: Option<(usize, Option<usize>)> = None;
    let mut opened = None;
    for (place, byte) in line.iter().enumerate() {
        let is_outside = opened.is_none();
        if *byte == b' ' && is_outside {
            words.extend(going.take().map(|word| ended(word, place)));
            continue;
        }
        let (_, split) = going.get_or_insert((place, None));
        if *byte == b'=' && is_outside {
            split.get_or_insert(place);
        }
        if *byte == b'"' {
            opened = if is_outside { Some(place) } else { None };
        }
    }
    if let Some(place) = opened {
        return Err(place);
    }
    words.extend(going.map(|word| ended(word, line.len())));
    Ok(words)
}

fn ended((start, split): (usize, Option<usize>), end: usize) -> Word {
    let split = split.unwrap_or(end);
    Word { start, end, split }
}

/// Why a line was not read, and of an unclosed quote its place.
pub type Refused = (Refusal, Option<usize>);

/// Writes the places of the words into three lists, and says how many words there are. A refusal writes nothing.
pub fn read(
    line: &[u8],
    starts: &mut [u64],
    ends: &mut [u64],
    splits: &mut [u64],
) -> Result<usize, Refused> {
    let words = words(line).map_err(|place| (Refusal::UnclosedQuote, Some(place)))?;
    if words.len() > starts.len().min(ends.len()).min(splits.len()) {
        return Err((Refusal::TooFewPlaces, None));
    }
    for (number, word) in words.iter().enumerate() {
        starts[number] = word.start as u64;
        ends[number] = word.end as u64;
        splits[number] = word.split as u64;
    }
    Ok(words.len())
}

#[cfg(test)]
mod tests {
    use super::*;

    /// Keys and values, or the place of the unclosed quote.
    fn check(line: &str, wanted: Result<&[(&str, Option<&str>)], usize>) {
        let told = words(line.as_bytes());
        let told = told.map(|words| {
            let told = words.iter().map(|word| {
                let value = (word.split < word.end).then(|| &line[word.split + 1..word.end]);
                (&line[word.start..word.split], value)
            });
            told.collect::<Vec<_>>()
        });
        assert_eq!(told, wanted.map(<[_]>::to_vec), "{line:?}");
    }

    #[test]
    fn words_part_at_runs_of_spaces_outside_quotes() {
        check("", Ok(&[]));
        check("   ", Ok(&[]));
        check("  a  b ", Ok(&[("a", None), ("b", None)]));
        check("a\tb", Ok(&[("a\tb", None)]));
        check("\" \" \"\"", Ok(&[("\" \"", None), ("\"\"", None)]));
        check("a\"b c\"d e", Ok(&[("a\"b c\"d", None), ("e", None)]));
    }

    #[test]
    fn the_first_equals_sign_outside_quotes_splits() {
        check("a=b=c =", Ok(&[("a", Some("b=c")), ("", Some(""))]));
        check("\"a=b\"=c", Ok(&[("\"a=b\"", Some("c"))]));
        check("k=\"v w\"", Ok(&[("k", Some("\"v w\""))]));
        check("\"=\"", Ok(&[("\"=\"", None)]));
    }

    #[test]
    fn the_last_of_an_odd_number_of_quotes_is_told() {
        check("a \"b", Err(2));
        check("\"\" \"\" \"", Err(6));
    }

    #[test]
    fn a_refusal_writes_nothing_and_the_quote_is_asked_first() {
        let (mut a, mut b, mut c) = ([7; 2], [7; 3], [7; 1]);
        let told = read(b"x \"", &mut a, &mut b, &mut c[..0]);
        assert_eq!(told, Err((Refusal::UnclosedQuote, Some(2))));
        let told = read(b"x y", &mut a, &mut b, &mut c);
        assert_eq!(told, Err((Refusal::TooFewPlaces, None)));
        assert_eq!((a, b, c), ([7; 2], [7; 3], [7; 1]));
        assert_eq!(read(b" x=", &mut a, &mut b, &mut c), Ok(1));
        assert_eq!((a, b, c), ([1, 7], [3, 7, 7], [2]));
    }
}
