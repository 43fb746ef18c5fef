//! The desk program, started once for each job; and the jobs that it is always asked: every way to print and every
//! way to break a job.

use crate::answer::Answer;
use crate::backend::{Backend, Reply};
use crate::examples;
use crate::generate::job::{job, Body};
use crate::question::Question;
use second::desk;
use second::Rules;
use std::io::{Read, Result, Write};
use std::process::{Command, Stdio};

/// How many bytes of guest memory the desk program has.
pub const GUEST: usize = 16_384;

/// The program, by its name and arguments.
pub struct Desk {
    pub program: Vec<String>,
}

impl Backend for Desk {
    fn name(&self) -> &str {
        "desk"
    }

    fn ask(&mut self, question: &Question) -> Reply {
        let Question::Job(job) = question else {
            return Reply::Outside;
        };
        match printed(&self.program, job) {
            Ok(text) => Reply::Answer(Answer::Job { text, guest: None }),
            Err(error) => Reply::Failed(error.to_string()),
        }
    }
}

fn elf() -> Body {
    (1, examples::small_elf().image)
}

fn line(text: &[u8]) -> Body {
    (3, text.to_vec())
}

fn with(bytes: Vec<u8>, place: usize, number: u32) -> Vec<u8> {
    let mut bytes = bytes;
    bytes[place..place + 4].copy_from_slice(&number.to_le_bytes());
    bytes
}

/// What a job is, and its bytes.
fn jobs() -> Vec<(&'static str, Vec<u8>)> {
    let both = || job(&[elf(), line(b"quiet")]);
    let bzimage = (2, examples::small_bzimage().image);
    let mut without_entry = examples::elf_with_notes().image;
    let entry = without_entry.windows(4).position(|name| name == b"Xen\0");
    without_entry[entry.expect("the PVH note's name")] = b'Y';
    let long = |length: usize| {
        let mut image = elf();
        image.1.resize(length - 16, 0);
        job(&[image])
    };
    let elf_at = |address: u32| {
        let (kind, image) = elf();
        (kind, with(image, 88, address))
    };
    let line_at_end = |length: usize| job(&[elf_at(16_000), line(&vec![b'a'; length])]);
    let mut rest = both();
    rest.push(0);
    vec![
        ("the worked example", job(&[elf()])),
        ("an image and a line", both()),
        ("a line and an image", job(&[line(b"quiet"), elf()])),
        ("a line of no bytes", job(&[elf(), line(b"")])),
        ("a bzImage", job(&[bzimage.clone()])),
        ("a bzImage and a line", job(&[bzimage, line(b"a")])),
        ("a PVH entry", job(&[(1, examples::elf_with_notes().image)])),
        ("no PVH entry", job(&[(1, without_entry)])),
        ("an image of no bytes", job(&[(1, vec![])])),
        ("a bzImage of no bytes", job(&[(2, vec![])])),
        ("an image that is none", job(&[(1, b"MZ".to_vec())])),
        (
            "a refused image with a line too long",
            job(&[(1, vec![]), line(&[b'a'; 5000])]),
        ),
        ("a line of the capacity", job(&[elf(), line(&[b'a'; 4095])])),
        ("a line too long", job(&[elf(), line(&[b'a'; 4096])])),
        ("init arguments alone", job(&[elf(), line(b" -- a")])),
        ("a segment that ends at 16,384", job(&[elf_at(16_381)])),
        ("a segment that ends at 16,385", job(&[elf_at(16_382)])),
        ("a line whose zero is at 16,383", line_at_end(375)),
        ("a line whose zero is at 16,384", line_at_end(376)),
        ("a job of 16,384 bytes", long(16_384)),
        ("a job of 16,385 bytes", long(16_385)),
        ("a job of 20,000 bytes", long(20_000)),
        ("no bytes", vec![]),
        ("a count cut short", vec![1, 0, 0]),
        ("a table cut short", both()[..27].to_vec()),
        ("a body cut short", both()[..both().len() - 1].to_vec()),
        ("a rest", rest),
        ("a count of 0", with(both(), 0, 0)),
        ("a count of 1 over two rows", with(both(), 0, 1)),
        ("a count of 3", with(both(), 0, 3)),
        ("a count of 2^32 - 1", with(both(), 0, u32::MAX)),
        ("a kind of 0", with(both(), 4, 0)),
        ("a kind of 4", with(both(), 16, 4)),
        ("a line alone", job(&[line(b"a")])),
        ("two images", job(&[elf(), elf()])),
        ("two lines", job(&[line(b"a"), line(b"b")])),
        ("a first place too small", with(both(), 8, 27)),
        ("a first place too great", with(both(), 8, 29)),
        ("a second place too small", with(both(), 20, 28 + 122)),
        ("a second place too great", with(both(), 20, 28 + 124)),
        (
            "the place of a line of no bytes",
            with(job(&[elf(), line(b"")]), 20, 0),
        ),
        ("a size too small", with(both(), 24, 4)),
        ("a size too great", with(both(), 24, 6)),
        ("a size of 2^32 - 1", with(both(), 24, u32::MAX)),
        ("a first size of 2^32 - 1", with(both(), 12, u32::MAX)),
    ]
}

/// Runs the program on every job; answers whether it printed what the second program says, each time.
pub fn run(program: &[String]) -> Result<bool> {
    let jobs = jobs();
    let mut differ = 0;
    for (what, bytes) in &jobs {
        let wanted = desk::run(Rules::landed(), &mut vec![0; GUEST], bytes);
        let printed = printed(program, bytes)?;
        if printed != wanted {
            println!("{what}: {wanted:?} is wanted, and {printed:?} was printed");
            differ += 1;
        }
    }
    println!("desk program: {} jobs, {differ} differ", jobs.len());
    Ok(differ == 0)
}

fn printed(program: &[String], job: &[u8]) -> Result<String> {
    let mut child = Command::new(&program[0])
        .args(&program[1..])
        .stdin(Stdio::piped())
        .stdout(Stdio::piped())
        .spawn()?;
    let mut input = child.stdin.take().expect("a piped input");
    // a program that has read enough may close its input
    let _ = input.write_all(job);
    drop(input);
    let mut text = Vec::new();
    let mut output = child.stdout.take().expect("a piped output");
    output.read_to_end(&mut text)?;
    child.wait()?;
    Ok(String::from_utf8_lossy(&text).into_owned())
}

#[cfg(test)]
mod tests {
    use super::*;

    fn text(what: &str) -> String {
        let jobs = jobs();
        let (_, bytes) = jobs.iter().find(|job| job.0 == what).expect("a job");
        desk::run(Rules::landed(), &mut vec![0; GUEST], bytes)
    }

    /// The table of contents, the texts and the refusals as the rules have them.
    #[test]
    fn each_job_prints_its_text() {
        assert_eq!(jobs()[0].1.len(), 139);
        assert_eq!(text("the worked example"), "load 16\nend 24\npvh ignored\n");
        assert_eq!(
            text("an image and a line"),
            "load 16\nend 24\npvh ignored\n"
        );
        assert_eq!(
            text("a line and an image"),
            "load 16\nend 24\npvh ignored\n"
        );
        assert_eq!(text("a PVH entry"), "load 16\nend 25\npvh 1048576\n");
        assert_eq!(text("no PVH entry"), "load 16\nend 25\npvh none\n");
        assert_eq!(text("a bzImage").lines().count(), 2);
        assert_eq!(text("an image of no bytes"), "refused 7\n");
        assert_eq!(text("a bzImage of no bytes"), "refused 21\n");
        assert_eq!(text("a refused image with a line too long"), "refused 7\n");
        assert_eq!(text("a line too long"), "refused 41\n");
        assert_eq!(text("init arguments alone"), "refused 31\n");
        assert_eq!(
            text("a segment that ends at 16,384"),
            "load 16\nend 16389\npvh ignored\n"
        );
        assert_eq!(text("a segment that ends at 16,385"), "refused 10\n");
        assert_eq!(
            text("a line whose zero is at 16,383"),
            "load 16\nend 16008\npvh ignored\n"
        );
        assert_eq!(text("a line whose zero is at 16,384"), "refused 32\n");
        assert_eq!(
            text("a job of 16,384 bytes"),
            "load 16\nend 24\npvh ignored\n"
        );
        let good = [
            "a line of no bytes",
            "a bzImage and a line",
            "a line of the capacity",
            "an image that is none",
        ];
        let broken = jobs().into_iter().skip(20).map(|job| job.0);
        for what in broken.filter(|what| !good.contains(what)) {
            assert_eq!(text(what), "refused 70\n", "{what}");
        }
    }
}
