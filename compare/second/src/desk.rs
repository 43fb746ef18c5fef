//! The desk program: a job behind a table of contents, and the text that it prints.

use crate::fields::u32_at;
use crate::line::Line;
use crate::map::whole;
use crate::note::Pvh;
use crate::{bzimage, elf, loading, Refusal, Rules};

/// The most bytes of a job.
pub const MOST: usize = 16_384;

const LINE_CAPACITY: u64 = 4096;

/// One row of the table: what its body is, and the body.
struct Row<'a> {
    kind: u32,
    body: &'a [u8],
}

/// What a job has.
struct Contents<'a> {
    image: Row<'a>,
    line: Option<&'a [u8]>,
}

/// Does the job over guest memory, which is cleared first, and says what is printed.
pub fn run(rules: Rules, guest: &mut [u8], job: &[u8]) -> String {
    match work(rules, guest, job) {
        Ok(text) => text,
        Err(refusal) => format!("refused {}\n", refusal.number()),
    }
}

fn work(rules: Rules, guest: &mut [u8], job: &[u8]) -> Result<String, Refusal> {
    let contents = contents(job).ok_or(Refusal::BadJob)?;
    guest.fill(0);
    let map = whole(guest.len());
    let image = contents.image.body;
    let (end, text) = if contents.image.kind == 1 {
        let loaded = elf::load(rules, image, guest, &map, None, None)?;
        let pvh = match loaded.pvh {
            Pvh::Present(entry) => format!("pvh {}\n", entry.address),
            Pvh::NotPresent => "pvh none\n".into(),
            Pvh::Ignored => "pvh ignored\n".into(),
        };
        let text = format!("load {}\nend {}\n{pvh}", loaded.load, loaded.end);
        (loaded.end, text)
    } else {
        let loaded = bzimage::load(image, guest, &map, None, None)?;
        let text = format!("load {}\nend {}\n", loaded.load, loaded.end);
        (loaded.end, text)
    };
    if let Some(text) = contents.line {
        let line = Line::try_from(text, LINE_CAPACITY)?;
        loading::load_line(guest, &map, end, &line)?;
    }
    Ok(text)
}

/// The rows of a good job, the image's and the line's.
fn contents(job: &[u8]) -> Option<Contents<'_>> {
    if job.len() > MOST {
        return None;
    }
    let count = number(job, 0)?;
    if count != 1 && count != 2 {
        return None;
    }
    let mut next = 4 + 12 * u64::from(count);
    let (mut images, mut lines) = (Vec::new(), Vec::new());
    for index in 0..count as usize {
        let row = 4 + 12 * index;
        let (kind, place, size) = (
            number(job, row)?,
            number(job, row + 4)?,
            number(job, row + 8)?,
        );
        if u64::from(place) != next {
            return None;
        }
        next += u64::from(size);
        let body = job.get(place as usize..usize::try_from(next).ok()?)?;
        match kind {
            1 | 2 => images.push(Row { kind, body }),
            3 => lines.push(body),
            _ => return None,
        }
    }
    if next != job.len() as u64 || images.len() != 1 || lines.len() > 1 {
        return None;
    }
    Some(Contents {
        image: images.pop()?,
        line: lines.pop(),
    })
}

fn number(job: &[u8], place: usize) -> Option<u32> {
    (job.len() >= place + 4).then(|| u32_at(job, place))
}
