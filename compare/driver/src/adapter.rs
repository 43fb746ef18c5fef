//! Asks a program that has the second program's functions. It stands over the second program itself and over the copy with planted
//! mistakes: the module above names which as `program`.

use super::program::{
    arm64, boot, bzimage, desk, elf, line::Line, loading, note, page, start, steps, words, Refusal,
    Rules,
};
use crate::answer::{
    Answer, Arm64Loaded, Booted, BzimageLoaded, CallAnswer, ElfLoaded, Note, NoteWalked, PageFound,
    Pvh, StartFound, StepTold, StepsTold, Told,
};
use crate::desk::GUEST;
use crate::lists::Lists;
use crate::question::{
    Boot, Call, Load, Loader, PageBuild, PageRead, Question, StartCheck, StartWrite, Steps, Walk,
    Words,
};

/// What an untouched byte of a lent output holds.
const UNTOUCHED: u8 = 0xe7;

/// The answer by a set of rules, which is the same set in the copy with planted mistakes.
pub fn answer_by(question: &Question, rules: second::Rules) -> Answer {
    let switched_on = rules.switched_on;
    let map = question.numbers();
    match question {
        Question::Elf(load) => answer_elf(load, &map, Rules { switched_on }),
        Question::Note(walk) => Answer::Note(answer_note(walk)),
        Question::Bzimage(load) => answer_bzimage(load, &map),
        Question::Line(calls) => Answer::Line(answer_calls(calls).0),
        Question::LineLoad(load) => {
            let (calls, line) = answer_calls(&load.calls);
            let mut guest = load.guest.clone();
            let outcome = loading::load_line(&mut guest, &map, load.address, &line);
            let outcome = outcome.map_err(Refusal::number);
            Answer::LineLoad {
                calls,
                outcome,
                guest,
            }
        }
        Question::Words(asked) => answer_words(asked),
        Question::PageBuild(build) => answer_build(build),
        Question::PageRead(read) => Answer::PageRead(answer_read(read)),
        Question::Steps(asked) => Answer::Steps(match asked.loader {
            Loader::Elf => answer_steps(asked, |loaded| {
                Told::Elf(loaded.map(elf_loaded).map_err(Refusal::number))
            }),
            Loader::Bzimage => answer_steps(asked, |loaded| {
                Told::Bzimage(loaded.map(bzimage_loaded).map_err(Refusal::number))
            }),
            Loader::Arm64 => answer_steps(asked, |loaded| {
                Told::Arm64(loaded.map(arm64_loaded).map_err(Refusal::number))
            }),
        }),
        Question::Arm64(load) => answer_arm64(load, &map),
        Question::StartWrite(write) => answer_start(write),
        Question::StartCheck(check) => Answer::StartCheck(answer_check(check)),
        Question::Job(bytes) => {
            // not 0, so that it shows whether guest memory was cleared
            let mut guest = vec![UNTOUCHED; GUEST];
            let switched_on = second::Rules::landed().switched_on;
            let text = desk::run(Rules { switched_on }, &mut guest, bytes);
            let guest = Some(guest);
            Answer::Job { text, guest }
        }
        Question::Boot(asked) => answer_boot(asked, &map),
    }
}

fn answer_boot(asked: &Boot, map: &[u64]) -> Answer {
    let mut guest = asked.guest.clone();
    let given = boot::Given {
        image: &asked.image,
        text: &asked.text,
        init: &asked.init,
        ramdisk: &asked.ramdisk,
        rows: &asked.rows,
        tree: &asked.tree,
    };
    let outcome = boot::boot(&mut guest, map, &asked.list, &given, asked.answers as usize);
    let outcome = outcome.map_err(Refusal::number).map(|booted| Booted {
        load: booted.load,
        end: booted.end,
        pvh: pvh(booted.pvh),
        entry: booted.entry,
    });
    Answer::Boot { outcome, guest }
}

/// Every call of a load in steps. The published crate has none, so there is one set of rules.
fn answer_steps<A: steps::Loads>(
    asked: &Steps,
    told: impl Fn(Result<A, Refusal>) -> Told,
) -> StepsTold {
    let switched_on = second::Rules::landed().switched_on;
    let (offset, highmem) = (asked.options.offset, asked.options.highmem);
    let mut load = steps::Steps::new(Rules { switched_on }, offset, highmem);
    let mut guest = asked.guest.clone();
    let mut calls = Vec::with_capacity(asked.calls.len());
    for call in &asked.calls {
        let lent = &mut guest[..asked.lent(call)];
        let step = load.step(lent, &asked.numbers(call), asked.image(call), call.budget);
        calls.push(match step {
            Ok(step) => StepTold::Step(step.copied, step.answer.map(&told)),
            Err(refusal) => StepTold::Refused(refusal.number()),
        });
    }
    StepsTold { calls, guest }
}

fn answer_build(build: &PageBuild) -> Answer {
    let mut page = build.page.clone();
    let header = build.header.as_slice().try_into();
    let addresses = page::Addresses {
        command_line: build.command_line,
        ramdisk: build.ramdisk,
        ramdisk_size: build.ramdisk_size,
    };
    let header = header.expect("a header has 123 bytes");
    let outcome = page::build(&mut page, header, addresses, &build.numbers);
    let outcome = outcome.map_err(Refusal::number);
    Answer::PageBuild { outcome, page }
}

fn answer_read(read: &PageRead) -> Result<PageFound, u8> {
    let found = page::read(&read.page()).map_err(Refusal::number)?;
    let rows = found.rows.iter();
    Ok(PageFound {
        command_line: found.addresses.command_line,
        ramdisk: found.addresses.ramdisk,
        ramdisk_size: found.addresses.ramdisk_size,
        header: found.header.to_vec(),
        numbers: rows
            .flat_map(|row| [row.address, row.size, row.kind.into()])
            .collect(),
    })
}

fn answer_start(write: &StartWrite) -> Answer {
    let mut guest = write.guest.clone();
    let start = start::Start {
        block: write.block,
        modules: write.modules_at,
        ranges: write.ranges_at,
        flags: write.flags,
        command_line: write.command_line,
        rsdp: write.rsdp,
    };
    let outcome = start::write(&mut guest, &write.map, start, &write.modules, &write.ranges);
    let outcome = outcome.map_err(Refusal::number);
    Answer::StartWrite { outcome, guest }
}

fn answer_check(check: &StartCheck) -> Result<StartFound, u8> {
    let found = start::check(&check.guest, &check.map, check.block).map_err(Refusal::number)?;
    Ok(StartFound {
        block: found.block,
        modules: found.modules,
        ranges: found.ranges,
    })
}

fn answer_words(asked: &Words) -> Answer {
    let mut lists = Lists::of(asked.places);
    let [starts, ends, splits] = &mut lists.0;
    let told = words::read(&asked.text, starts, ends, splits);
    lists.read(told.map_err(|(refusal, place)| (refusal.number(), place.map(|place| place as u64))))
}

fn answer_elf(load: &Load, map: &[u64], rules: Rules) -> Answer {
    let mut guest = load.guest.clone();
    let (offset, highmem) = (load.options.offset, load.options.highmem);
    let outcome = elf::load(rules, &load.image, &mut guest, map, offset, highmem);
    let outcome = outcome.map_err(Refusal::number).map(elf_loaded);
    Answer::Elf { outcome, guest }
}

fn elf_loaded(loaded: elf::Loaded) -> ElfLoaded {
    ElfLoaded {
        load: loaded.load,
        end: loaded.end,
        pvh: pvh(loaded.pvh),
    }
}

fn answer_note(walk: &Walk) -> Result<NoteWalked, u8> {
    let walked = note::walk(&walk.image, walk.place, walk.size).map_err(Refusal::number)?;
    Ok(NoteWalked {
        pvh: pvh(walked.pvh),
        headers: Some(walked.headers),
    })
}

fn pvh(pvh: note::Pvh) -> Pvh {
    match pvh {
        note::Pvh::Present(entry) => {
            let (place, size) = (entry.place, entry.size.into());
            Pvh::At(entry.address, Some(Note { place, size }))
        }
        note::Pvh::NotPresent => Pvh::None,
        note::Pvh::Ignored => Pvh::Ignored,
    }
}

fn answer_bzimage(load: &Load, map: &[u64]) -> Answer {
    let mut guest = load.guest.clone();
    let (offset, highmem) = (load.options.offset, load.options.highmem);
    let outcome = bzimage::load(&load.image, &mut guest, map, offset, highmem);
    let outcome = outcome.map_err(Refusal::number).map(bzimage_loaded);
    Answer::Bzimage { outcome, guest }
}

fn bzimage_loaded(loaded: bzimage::Loaded) -> BzimageLoaded {
    BzimageLoaded {
        load: loaded.load,
        end: loaded.end,
        header: loaded.header.to_vec(),
    }
}

fn answer_arm64(load: &Load, map: &[u64]) -> Answer {
    let mut guest = load.guest.clone();
    let base = load.options.offset.unwrap_or(0);
    let outcome = arm64::load(&load.image, &mut guest, map, base);
    let outcome = outcome.map_err(Refusal::number).map(arm64_loaded);
    Answer::Arm64 { outcome, guest }
}

fn arm64_loaded(loaded: arm64::Loaded) -> Arm64Loaded {
    (loaded.load, loaded.end)
}

/// The line that the calls make.
#[allow(dead_code)] // nobody asks the copy with planted mistakes for it
pub fn line_of(calls: &[Call]) -> Line {
    answer_calls(calls).1
}

fn answer_calls(calls: &[Call]) -> (Vec<CallAnswer>, Line) {
    let mut line = Line::new(1).expect("1 is a capacity");
    let mut kept = line.clone();
    let mut answers = Vec::with_capacity(calls.len());
    for call in calls {
        answers.push(answer_call(call, &mut line, &mut kept));
    }
    (answers, line)
}

fn answer_call(call: &Call, line: &mut Line, kept: &mut Line) -> CallAnswer {
    let outcome = match call {
        Call::New { capacity } => Line::new((*capacity).into()).map(|made| *line = made),
        Call::InsertStr(text) => line.insert_str(text),
        Call::InsertInitArgs(text) => line.insert_init_args(text),
        Call::Insert { key, value } => line.insert(key, value),
        Call::InsertMultiple { key, ends, values } => line.insert_multiple(key, ends, values),
        Call::AddDevice {
            size,
            address,
            irq,
            id,
        } => line.add_virtio_mmio_device(*size, *address, *irq, *id),
        Call::TryFrom { capacity, text } => {
            Line::try_from(text, (*capacity).into()).map(|made| *line = made)
        }
        Call::AsCstring { room } => return written(line, *room as usize),
        Call::Keep => {
            *kept = line.clone();
            Ok(())
        }
        Call::IsEqual => return CallAnswer::Equal(line == kept),
    };
    match outcome {
        Ok(()) => CallAnswer::Ok,
        Err(refusal) => CallAnswer::Refused(refusal.number()),
    }
}

fn written(line: &Line, room: usize) -> CallAnswer {
    let mut output = vec![UNTOUCHED; room];
    let outcome = line.write_to(&mut output).map_err(Refusal::number);
    let others = *outcome.as_ref().unwrap_or(&0);
    let spoilt = output[others..].iter().any(|byte| *byte != UNTOUCHED);
    output.truncate(others);
    let outcome = outcome.map(|_| output);
    CallAnswer::Written { outcome, spoilt }
}
