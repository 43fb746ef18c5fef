//! What the command line asks for.

use std::ffi::OsString;

use lexopt::prelude::*;
use rekusoyen::GuestAddress;

use crate::boot::arguments::{self as boot, Boot};
use crate::sizes;

pub const HELP: &str = "\
usage: rekusoyen                         load a small built-in image
       rekusoyen load [OPTIONS] < IMAGE  load an image from standard input
       rekusoyen boot [OPTIONS] < IMAGE  show a whole boot: boot --help
       rekusoyen words < LINE            show the words of a command line

Loads a kernel into guest memory, as a monitor would before it starts it, and
prints where the kernel is entered (load), where it ends (end) and its PVH
entry (pvh: an address, none, or ignored). Those addresses are decimal.

  --guest SIZE       guest memory, from address 0; 1G if not given
  --offset ADDRESS   ELF: move every segment by this; bzImage: load here
  --base ADDRESS     arm64: load behind this multiple of 2M; 0 if not given
  --highmem ADDRESS  refuse a kernel whose e_entry (ELF) or code32_start
                     (bzImage), before any --offset, lies below this address
  --cmdline TEXT     put this command line into guest memory, too
  --at ADDRESS       and put it here; at the kernel's end if not given
  --format FORMAT    elf, bzimage, arm64 or auto; auto if not given
  --verbose          show each segment and note, of a refused load too
  --help, --version

A size or address is decimal, with K, M, G or T behind it if wanted, or 0x and
hexadecimal digits: 64M, 0x100000.
Exit status: 0 for an accepted load, 1 for a refused one, 2 for wrong usage.
";

/// What is to be done.
#[derive(Debug, PartialEq)]
pub enum Request {
    Help,
    Version,
    BuiltIn,
    Words,
    Load(Load),
    Boot(Boot),
    BootHelp,
}

/// Which loader takes the image.
#[derive(Clone, Copy, Debug, PartialEq)]
pub enum Format {
    Elf,
    BzImage,
    Arm64,
    Auto,
}

/// A load, and what it is given.
#[derive(Clone, Debug, PartialEq)]
pub struct Load {
    pub guest: u64,
    pub offset: Option<GuestAddress>,
    pub base: Option<GuestAddress>,
    pub highmem: Option<GuestAddress>,
    pub cmdline: Option<String>,
    pub at: Option<GuestAddress>,
    pub format: Format,
    pub verbose: bool,
}

impl Default for Load {
    fn default() -> Self {
        Load {
            guest: 1 << 30,
            offset: None,
            base: None,
            highmem: None,
            cmdline: None,
            at: None,
            format: Format::Auto,
            verbose: false,
        }
    }
}

/// The options that were read, as they can be typed again.
struct Typed(Vec<String>);

impl Typed {
    /// The value of an option.
    fn value(&mut self, name: &str, parser: &mut lexopt::Parser) -> Result<String, lexopt::Error> {
        let text = parser.value()?.into_string()?;
        self.0.extend([format!("--{name}"), text.clone()]);
        Ok(text)
    }

    fn number(&mut self, name: &str, parser: &mut lexopt::Parser) -> Result<u64, lexopt::Error> {
        let text = self.value(name, parser)?;
        sizes::number(&text).ok_or_else(|| {
            format!("'{text}' is no size or address: write one as 4096, 64M or 0x100000").into()
        })
    }

    fn address(
        &mut self,
        name: &str,
        parser: &mut lexopt::Parser,
    ) -> Result<Option<GuestAddress>, lexopt::Error> {
        Ok(Some(GuestAddress(self.number(name, parser)?)))
    }
}

/// Reads the words after the command's name, which is needed to show a line to type.
pub fn read(name: &str, words: Vec<OsString>) -> Result<Request, lexopt::Error> {
    if words.first().is_some_and(|word| word == "boot") {
        let boot = boot::read(name, &words[1..])?;
        return Ok(boot.map_or(Request::BootHelp, Request::Boot));
    }
    let mut parser = lexopt::Parser::from_args(words);
    let parser = &mut parser;
    let mut load = Load::default();
    let mut typed = Typed(Vec::new());
    let mut asked = false;
    let mut words = false;
    let mut file = None;
    while let Some(word) = parser.next()? {
        match word {
            Long("help") | Short('h') => return Ok(Request::Help),
            Long("version") | Short('V') => return Ok(Request::Version),
            Value(word) if !asked && !words && word == "load" => asked = true,
            Value(word) if !asked && !words && word == "words" => words = true,
            Value(word) if file.is_none() => file = Some(word),
            Long("guest") => load.guest = typed.number("guest", parser)?,
            Long("offset") => load.offset = typed.address("offset", parser)?,
            Long("base") => load.base = typed.address("base", parser)?,
            Long("highmem") => load.highmem = typed.address("highmem", parser)?,
            Long("cmdline") => load.cmdline = Some(typed.value("cmdline", parser)?),
            Long("at") => load.at = typed.address("at", parser)?,
            Long("format") => load.format = format(&typed.value("format", parser)?)?,
            Long("verbose") | Short('v') => {
                load.verbose = true;
                typed.0.push("--verbose".to_string());
            }
            _ => return Err(word.unexpected()),
        }
    }
    if words {
        return match (typed.0.is_empty(), file) {
            (true, None) => Ok(Request::Words),
            _ => Err(format!(
                "the line comes by standard input, and nothing else is asked: {name} words < LINE"
            )
            .into()),
        };
    }
    if let Some(file) = file {
        return Err(by_standard_input(name, &typed.0, &file.to_string_lossy()).into());
    }
    if load.at.is_some() && load.cmdline.is_none() {
        return Err("--at says where a command line goes, and there is no --cmdline".into());
    }
    match (asked, typed.0.is_empty()) {
        (true, _) => Ok(Request::Load(load)),
        (false, true) => Ok(Request::BuiltIn),
        (false, false) => {
            Err(format!("these options belong to a load: {name} load [OPTIONS] < IMAGE").into())
        }
    }
}

pub fn format(text: &str) -> Result<Format, lexopt::Error> {
    match text {
        "elf" => Ok(Format::Elf),
        "bzimage" => Ok(Format::BzImage),
        "arm64" => Ok(Format::Arm64),
        "auto" => Ok(Format::Auto),
        _ => Err(format!("'{text}' is no format: there are elf, bzimage, arm64 and auto").into()),
    }
}

/// A file was named: the line that would load it.
fn by_standard_input(name: &str, options: &[String], file: &str) -> String {
    let file = shell_word(file);
    let mut line = vec![shell_word(name), "load".to_string()];
    line.extend(options.iter().map(|word| shell_word(word)));
    format!(
        "the image comes by standard input, and {file} is one word too many; to load it:\n    {} < {file}",
        line.join(" ")
    )
}

/// A word as a shell takes it.
fn shell_word(word: &str) -> String {
    let plain = |c: char| c.is_ascii_alphanumeric() || "-_./=:,+@%".contains(c);
    if !word.is_empty() && word.chars().all(plain) {
        word.to_string()
    } else {
        format!("'{}'", word.replace('\'', "'\\''"))
    }
}

#[cfg(test)]
mod tests {
    use super::*;

    fn read_words(words: &str) -> Result<Request, lexopt::Error> {
        let words = words.split_whitespace().map(OsString::from);
        read("./rekusoyen", words.collect())
    }

    #[test]
    fn all_options_are_read() {
        let words = "load --guest 64M --offset=0x10 --base 2M --highmem 1K --cmdline quiet --at 7 --format elf --verbose";
        let expected = Load {
            guest: 64 << 20,
            offset: Some(GuestAddress(16)),
            base: Some(GuestAddress(2 << 20)),
            highmem: Some(GuestAddress(1024)),
            cmdline: Some("quiet".to_string()),
            at: Some(GuestAddress(7)),
            format: Format::Elf,
            verbose: true,
        };
        assert_eq!(read_words(words).unwrap(), Request::Load(expected));
        assert_eq!(read_words("load").unwrap(), Request::Load(Load::default()));
        assert_eq!(read_words("").unwrap(), Request::BuiltIn);
        assert_eq!(read_words("--help load").unwrap(), Request::Help);
        assert_eq!(read_words("-V").unwrap(), Request::Version);
        assert_eq!(read_words("words").unwrap(), Request::Words);
        assert_eq!(read_words("boot").unwrap(), Request::Boot(Boot::default()));
        assert_eq!(read_words("boot --help").unwrap(), Request::BootHelp);
    }

    #[test]
    fn wrong_words_are_told() {
        for (words, told) in [
            ("store", "./rekusoyen load < store"),
            ("load vmlinuz", "the image comes by standard input"),
            (
                "load --guest 64M vmlinuz --verbose",
                "./rekusoyen load --guest 64M --verbose < vmlinuz",
            ),
            (
                "load it's --cmdline load",
                "./rekusoyen load --cmdline load < 'it'\\''s'",
            ),
            ("load one two", "unexpected argument \"two\""),
            ("load --colour", "invalid option '--colour'"),
            ("load --guest", "missing argument"),
            ("load --guest many", "'many' is no size or address"),
            ("load --format pe", "'pe' is no format"),
            ("load --at 5", "there is no --cmdline"),
            ("--verbose", "belong to a load"),
            ("words line", "./rekusoyen words < LINE"),
            ("words --verbose", "./rekusoyen words < LINE"),
        ] {
            let error = read_words(words).unwrap_err().to_string();
            assert!(error.contains(told), "{words}: {error}");
        }
    }

    #[test]
    fn help_fits_on_a_screen_and_says_what_is_compared() {
        assert!(HELP.contains("e_entry (ELF) or code32_start"));
        assert!(HELP.lines().count() <= 24);
        assert!(HELP.lines().all(|line| line.chars().count() < 80));
    }
}
