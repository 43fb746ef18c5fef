//! The words of a command line, read back.
//!
//! The rule is a house rule and not the kernel's own: words part at runs of spaces, a double quote opens a stretch in which spaces do
//! not part words, the next one closes it, and the first equals sign outside quotes splits a word's key from its value. No other byte has
//! a meaning.
//!
//! ```
//! use rekusoyen::words::{words, UnclosedQuote};
//!
//! let line = b"quiet  root=/dev/vda motd=\"good morning\"";
//! let told: Vec<_> = words(line)?.map(|word| (word.key, word.value)).collect();
//! let expected: [(&[u8], Option<&[u8]>); 3] = [
//!     (b"quiet", None),
//!     (b"root", Some(b"/dev/vda")),
//!     (b"motd", Some(b"\"good morning\"")),
//! ];
//! assert_eq!(told, expected);
//! assert_eq!(words(b"a \"b").unwrap_err().place, 2);
//! # Ok::<(), UnclosedQuote>(())
//! ```

use std::error::Error;
use std::fmt;

use crate::ffi::call;
use crate::refusal::answered;
use crate::Refusal;

/// A word of a line.
#[derive(Clone, Copy, Debug, PartialEq, Eq)]
pub struct Word<'a> {
    /// Where in the line it starts.
    pub start: usize,
    /// The whole word.
    pub text: &'a [u8],
    /// What stands before its first equals sign outside quotes; the whole word where there is none.
    pub key: &'a [u8],
    /// What stands behind that sign, quotes and all, if there is one.
    pub value: Option<&'a [u8]>,
}

/// The words of a line, in their order.
#[derive(Clone, Debug)]
pub struct Words<'a> {
    line: &'a [u8],
    // the start, end and split of each word
    places: [Vec<u64>; 3],
    next: usize,
}

/// The number of a line's quotes is odd.
#[derive(Clone, Copy, Debug, PartialEq, Eq)]
pub struct UnclosedQuote {
    /// Where the last one stands, which none closes.
    pub place: usize,
}

impl UnclosedQuote {
    /// The refusal that it stands for.
    pub fn refusal(&self) -> Refusal {
        Refusal::UnclosedQuote
    }

    /// The refusal's number.
    pub fn number(&self) -> u32 {
        self.refusal().number()
    }
}

impl fmt::Display for UnclosedQuote {
    fn fmt(&self, f: &mut fmt::Formatter) -> fmt::Result {
        write!(f, "The quote at byte {} is not closed.", self.place)
    }
}

impl Error for UnclosedQuote {}

/// Reads the words of a line, which comes without its closing zero.
pub fn words(line: &[u8]) -> Result<Words<'_>, UnclosedQuote> {
    // two words have a space between them, so that there are no more than these
    let most = line.len() / 2 + line.len() % 2;
    let mut places = [vec![0; most], vec![0; most], vec![0; most]];
    let mut out = [0];
    let [starts, ends, splits] = &mut places;
    let number = call!(rekusoyen_raw_line_words(
        in line, mut starts, mut ends, mut splits, mut &mut out
    ));
    // a count of words, or an index of the line
    let found = out[0] as usize;
    match answered(number) {
        Ok(()) => {
            for list in &mut places {
                list.truncate(found);
            }
            let next = 0;
            Ok(Words { line, places, next })
        }
        Err(Refusal::UnclosedQuote) => Err(UnclosedQuote { place: found }),
        Err(refusal) => {
            unreachable!("the lists have their sizes, and the library said {refusal:?}")
        }
    }
}

impl<'a> Iterator for Words<'a> {
    type Item = Word<'a>;

    fn next(&mut self) -> Option<Word<'a>> {
        let [starts, ends, splits] = &self.places;
        let start = *starts.get(self.next)? as usize;
        let (end, split) = (ends[self.next] as usize, splits[self.next] as usize);
        self.next += 1;
        let line = self.line;
        Some(Word {
            start,
            text: &line[start..end],
            key: &line[start..split],
            value: (split < end).then(|| &line[split + 1..end]),
        })
    }

    fn size_hint(&self) -> (usize, Option<usize>) {
        let left = self.places[0].len() - self.next;
        (left, Some(left))
    }
}

impl ExactSizeIterator for Words<'_> {}
