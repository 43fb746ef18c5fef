//! Line calls on a crate of the published names: the module above says which it is, and which number an error has.

use super::{number_of, program};
use driver::answer::CallAnswer;
use driver::domain;
use driver::question::Call;
use program::cmdline::{Cmdline, Error};
use std::str;
use vm_memory::GuestAddress;

/// Answers calls in turn, and hands over the line that they made.
pub fn answer_calls(calls: &[Call]) -> (Vec<CallAnswer>, Cmdline) {
    let mut line = Cmdline::new(1).expect("1 is a capacity");
    let mut kept = line.clone();
    let mut answers = Vec::with_capacity(calls.len());
    for call in calls {
        answers.push(if domain::asks_call(call) {
            answer_call(call, &mut line, &mut kept)
        } else {
            CallAnswer::Unasked
        });
    }
    (answers, line)
}

fn answer_call(call: &Call, line: &mut Cmdline, kept: &mut Cmdline) -> CallAnswer {
    let outcome = match call {
        Call::New { capacity } => Cmdline::new(*capacity as usize).map(|made| *line = made),
        Call::InsertStr(slug) => line.insert_str(text(slug)),
        Call::InsertInitArgs(slug) => line.insert_init_args(text(slug)),
        Call::Insert { key, value } => line.insert(text(key), text(value)),
        Call::InsertMultiple { key, ends, values } => {
            line.insert_multiple(text(key), &parts(ends, text(values)))
        }
        Call::AddDevice {
            size,
            address,
            irq,
            id,
        } => line.add_virtio_mmio_device(*size, GuestAddress(*address), *irq, *id),
        Call::TryFrom {
            capacity,
            text: whole,
        } => Cmdline::try_from(text(whole), *capacity as usize).map(|made| *line = made),
        Call::AsCstring { room } => return written(line, *room),
        Call::Keep => {
            kept.clone_from(line);
            Ok(())
        }
        Call::IsEqual => return CallAnswer::Equal(line == kept),
    };
    match outcome {
        Ok(()) => CallAnswer::Ok,
        Err(error) => CallAnswer::Refused(number_of(error)),
    }
}

fn written(line: &Cmdline, room: u32) -> CallAnswer {
    let outcome: Result<_, Error> = line.as_cstring();
    let outcome = match outcome {
        Ok(written) => {
            let bytes = written.into_bytes_with_nul();
            if domain::output_is_short(room, &bytes) {
                return CallAnswer::Unasked;
            }
            Ok(bytes)
        }
        Err(error) => Err(number_of(error)),
    };
    CallAnswer::Written {
        outcome,
        spoilt: false,
    }
}

/// The domain has bytes up to 127 alone, which are text.
fn text(bytes: &[u8]) -> &str {
    str::from_utf8(bytes).expect("the domain has bytes up to 127 alone")
}

/// The texts that an orderly list of ends cuts out of one buffer.
fn parts<'a>(ends: &[u32], values: &'a str) -> Vec<&'a str> {
    let mut start = 0;
    let mut parts = Vec::with_capacity(ends.len());
    for end in ends.iter().map(|end| *end as usize) {
        parts.push(&values[start..end]);
        start = end;
    }
    parts
}
