//! Lines read back, into lists of the caller.

use crate::ffi::call;
use driver::answer::Answer;
use driver::lists::Lists;
use driver::question::Words;

pub fn read(asked: &Words) -> Answer {
    let mut lists = Lists::of(asked.places);
    let mut out = [0];
    let [starts, ends, splits] = &mut lists.0;
    let number = call!(rekusoyen_raw_line_words(
        in &asked.text, mut starts, mut ends, mut splits, mut &mut out
    ));
    lists.read(match number {
        0 => Ok(out[0] as usize),
        71 => Err((71, Some(out[0]))),
        refusal => Err((refusal as u8, None)),
    })
}
