//! Shows in one command what a kernel image would do to guest memory.

mod arguments;
mod boot;
mod built_in;
mod explain;
mod input;
mod load;
mod notes;
mod progress;
mod report;
mod sizes;
mod words;

use std::io::{self, ErrorKind, IsTerminal, Write};
use std::process::ExitCode;

use arguments::{Load, Request};
use explain::Explained;
use load::Refused;
use rekusoyen::Refusal;

const REFUSED: u8 = 1;
const WRONG_USAGE: u8 = 2;

fn main() -> ExitCode {
    let mut words = std::env::args_os();
    let name = words.next().unwrap_or_else(|| "rekusoyen".into());
    let name = name.to_string_lossy();
    let answer = match arguments::read(&name, words.collect()) {
        Ok(Request::Help) => Ok(Answer::of(arguments::HELP.to_string())),
        Ok(Request::Version) => Ok(Answer::of(format!(
            "rekusoyen {}\n",
            env!("CARGO_PKG_VERSION")
        ))),
        Ok(Request::BuiltIn) => Ok(built_in()),
        Ok(Request::Words) => words_of_input(&name),
        Ok(Request::Load(asked)) => from_input(&name, &asked),
        Ok(Request::Boot(asked)) => {
            image_of_input(&name, "boot").and_then(|image| boot::boot(&image, &asked))
        }
        Ok(Request::BootHelp) => Ok(Answer::of(boot::arguments::HELP.to_string())),
        Err(error) => Err(Failure::Usage(error.to_string())),
    };
    match answer {
        Ok(answer) => {
            for remark in answer.remarks {
                say(&format!("rekusoyen: {remark}\n"));
            }
            print(&answer.result)
        }
        Err(Failure::Refused(told)) => {
            say(&told);
            ExitCode::from(REFUSED)
        }
        Err(Failure::Usage(reason)) => {
            say(&format!(
                "rekusoyen: {reason}\nrekusoyen: '{name} --help' says what can be asked\n"
            ));
            ExitCode::from(WRONG_USAGE)
        }
    }
}

/// What is printed: the result on standard output, remarks on standard error.
struct Answer {
    result: String,
    remarks: Vec<String>,
}

impl Answer {
    fn of(result: String) -> Answer {
        let remarks = Vec::new();
        Answer { result, remarks }
    }
}

/// Why there is no result.
enum Failure {
    Refused(String),
    Usage(String),
}

/// Writes to standard error; where nobody reads it there is nothing to be done.
fn say(text: &str) {
    let _ = io::stderr().write_all(text.as_bytes());
}

/// Standard output may be closed: then whoever read it has had enough. It may be full: then the load was for nothing.
fn print(text: &str) -> ExitCode {
    let mut out = io::stdout();
    match out.write_all(text.as_bytes()).and_then(|()| out.flush()) {
        Ok(()) => ExitCode::SUCCESS,
        Err(error) if error.kind() == ErrorKind::BrokenPipe => ExitCode::SUCCESS,
        Err(error) => {
            say(&format!(
                "rekusoyen: standard output cannot be written: {error}\n"
            ));
            ExitCode::from(WRONG_USAGE)
        }
    }
}

/// The words of the line that standard input has.
fn words_of_input(name: &str) -> Result<Answer, Failure> {
    if io::stdin().is_terminal() {
        return Err(Failure::Usage(format!(
            "the line comes by standard input: {name} words < LINE"
        )));
    }
    let line = input::image(io::stdin().lock(), input::LONGEST)
        .map_err(|error| Failure::Usage(format!("standard input cannot be read: {error}")))?;
    match words::shown(&line) {
        Ok(result) => Ok(Answer::of(result)),
        Err(told) => Err(Failure::Refused(told)),
    }
}

/// The image that standard input has, for a command.
fn image_of_input(name: &str, command: &str) -> Result<Vec<u8>, Failure> {
    if io::stdin().is_terminal() {
        return Err(Failure::Usage(format!(
            "the image comes by standard input: {name} {command} < IMAGE"
        )));
    }
    input::image(io::stdin().lock(), input::LONGEST)
        .map_err(|error| Failure::Usage(format!("standard input cannot be read: {error}")))
}

/// Loads the image that standard input has.
fn from_input(name: &str, asked: &Load) -> Result<Answer, Failure> {
    let image = image_of_input(name, "load")?;
    let mut guest = input::Guest::new(asked.guest).ok_or_else(|| {
        Failure::Usage(format!(
            "the system gives no {} bytes for guest memory",
            asked.guest
        ))
    })?;
    let mut line = progress::on_terminal();
    let loaded = load::load(guest.bytes(), &image, asked, |bytes| {
        line.show("copied", bytes)
    });
    drop(line);
    match loaded {
        Ok(loaded) => {
            let mut result = String::new();
            if asked.verbose {
                result += &report::details(loaded.format, &image, asked);
                result += &report::used_note(&loaded);
            }
            result += &report::result(&loaded);
            let remarks = report::remarks(&loaded, &image, asked);
            Ok(Answer { result, remarks })
        }
        Err(refused) => Err(Failure::Refused(told(&refused, &image, asked))),
    }
}

/// A refusal: number and name, what it was about, and what to try.
fn told(refused: &Refused, image: &[u8], asked: &Load) -> String {
    let refusal: Refusal = refused.refusal;
    let Explained { about, advice } = explain::explain(refused, image, asked);
    let mut text = format!("refused {} {refusal:?}\n{about}\n", refusal.number());
    if let Some(advice) = advice {
        text += &format!("try: {advice}\n");
    }
    if asked.verbose {
        text += &report::details(refused.format, image, asked);
    }
    text
}

/// Loads the built-in image, with a line behind it, and shows all that was done.
fn built_in() -> Answer {
    let image = built_in::image();
    let mut guest = vec![b'.'; built_in::GUEST];
    let asked = Load {
        guest: guest.len() as u64,
        cmdline: Some("quiet".to_string()),
        ..Load::default()
    };
    let loaded = load::load(&mut guest, &image, &asked, |_| {});
    let loaded = loaded.expect("the built-in image is a good one");
    Answer::of(format!(
        "A built-in ELF image of {} bytes and the command line 'quiet', loaded into {} bytes of guest memory:\n\n{}{}\n{}\n{}\n{}\n",
        image.len(),
        guest.len(),
        report::details(loaded.format, &image, &asked),
        report::used_note(&loaded),
        report::result(&loaded),
        shown(&guest),
        "Yours: rekusoyen load < IMAGE. More: rekusoyen --help",
    ))
}

/// Guest memory, 16 bytes a line; a byte that was not written shows as the dot that it held before.
fn shown(guest: &[u8]) -> String {
    let line =
        |(i, bytes): (usize, &[u8])| format!("guest {:#04x}  {}\n", 16 * i, bytes.escape_ascii());
    guest.chunks(16).enumerate().map(line).collect()
}
