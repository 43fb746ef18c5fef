//! The three lists that the words of a line are written into.

use crate::answer::{Answer, WordsRead};

/// What an untouched place of a list holds.
const UNTOUCHED: u64 = 0xe7e7_e7e7_e7e7_e7e7;

/// Starts, ends and splits.
pub struct Lists(pub [Vec<u64>; 3]);

impl Lists {
    /// Lists of so many places each, none of them touched.
    pub fn of(places: [u32; 3]) -> Lists {
        Lists(places.map(|count| vec![UNTOUCHED; count as usize]))
    }

    /// What was read into them: so many words, or the refusal.
    pub fn read(&self, told: Result<usize, (u8, Option<u64>)>) -> Answer {
        let written = *told.as_ref().unwrap_or(&0);
        let others = self.0.iter().flat_map(|list| list.iter().skip(written));
        let spoilt = others.into_iter().any(|place| *place != UNTOUCHED);
        let outcome = told.map(|count| {
            let [starts, ends, splits] = &self.0;
            let word = |number: usize| [starts[number], ends[number], splits[number]];
            (0..count).map(word).collect()
        });
        Answer::Words(WordsRead { outcome, spoilt })
    }
}
