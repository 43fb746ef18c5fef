//! Lines, in bytes of the caller.

use crate::ffi::call;
use crate::outcome;
use driver::answer::{Answer, CallAnswer};
use driver::question::{Call, LineLoad};
use rekusoyen::entry::LINE_SIZE;

/// What an untouched byte of an output holds.
const UNTOUCHED: u8 = 0xe7;

/// A line's bytes.
type Line = Vec<u8>;

pub fn calls(calls: &[Call]) -> Answer {
    Answer::Line(answer_calls(calls).0)
}

pub fn load(load: &LineLoad, map: &[u64]) -> Answer {
    let (calls, line) = answer_calls(&load.calls);
    let mut guest = load.guest.clone();
    let number = call!(rekusoyen_line_load(mut &mut guest, in map, load.address, in &line));
    let outcome = outcome(number, || ());
    Answer::LineLoad {
        calls,
        outcome,
        guest,
    }
}

fn answer_calls(calls: &[Call]) -> (Vec<CallAnswer>, Line) {
    let mut line = vec![0; LINE_SIZE];
    let made = call!(rekusoyen_line_new(mut &mut line, 1));
    assert_eq!(made, 0, "1 is a capacity");
    let mut kept = line.clone();
    let answers = calls
        .iter()
        .map(|call| answer_call(call, &mut line, &mut kept))
        .collect();
    (answers, line)
}

fn answer_call(call: &Call, line: &mut Line, kept: &mut Line) -> CallAnswer {
    let number = match call {
        Call::New { capacity } => call!(rekusoyen_line_new(mut line, u64::from(*capacity))),
        Call::InsertStr(text) => call!(rekusoyen_line_insert_str(mut line, in text)),
        Call::InsertInitArgs(text) => call!(rekusoyen_line_insert_init_args(mut line, in text)),
        Call::Insert { key, value } => call!(rekusoyen_line_insert(mut line, in key, in value)),
        Call::InsertMultiple { key, ends, values } => {
            let ends: Vec<usize> = ends.iter().map(|end| *end as usize).collect();
            call!(rekusoyen_line_insert_multiple(mut line, in key, in values, in &ends))
        }
        Call::AddDevice {
            size,
            address,
            irq,
            id,
        } => {
            let (has_id, id) = (u32::from(id.is_some()), id.unwrap_or(0));
            call!(rekusoyen_line_add_virtio_mmio_device(mut line, *size, *address, *irq, has_id, id))
        }
        Call::TryFrom { capacity, text } => {
            call!(rekusoyen_line_try_from(mut line, in text, u64::from(*capacity)))
        }
        Call::AsCstring { room } => return written(line, *room as usize),
        Call::Keep => {
            kept.clone_from(line);
            0
        }
        Call::IsEqual => return is_equal(line, kept),
    };
    match outcome(number, || ()) {
        Ok(()) => CallAnswer::Ok,
        Err(refusal) => CallAnswer::Refused(refusal),
    }
}

fn written(line: &Line, room: usize) -> CallAnswer {
    let mut output = vec![UNTOUCHED; room];
    let mut count = [0];
    let number = call!(rekusoyen_raw_line_as_cstring(in line, mut &mut output, mut &mut count));
    let outcome = outcome(number, || count[0] as usize);
    let others = *outcome.as_ref().unwrap_or(&0);
    let spoilt = output[others..].iter().any(|byte| *byte != UNTOUCHED);
    output.truncate(others);
    let outcome = outcome.map(|_| output);
    CallAnswer::Written { outcome, spoilt }
}

fn is_equal(line: &Line, kept: &Line) -> CallAnswer {
    let mut out = [0];
    let number = call!(rekusoyen_raw_line_equal(in line, in kept, mut &mut out));
    assert_eq!(number, 0, "both are lines");
    CallAnswer::Equal(out[0] == 1)
}
