//! What `rekusoyen boot` is asked for.

use std::ffi::OsString;
use std::path::PathBuf;

use lexopt::prelude::*;
use rekusoyen::GuestAddress;

use crate::arguments::{format, Load};
use crate::sizes;

pub const HELP: &str = "\
usage: rekusoyen boot [OPTIONS] < IMAGE

Puts kernel, command line, ramdisk and boot data into guest memory by one call,
and shows where each of them is. What has no address is placed.

  --cmdline TEXT        the command line; an empty one if not given
  --ramdisk FILE        the initial ramdisk
  --tree FILE           arm64: the device tree, which has the line in it
  --entry ENTRY         page32, page64, pvh or tree; if not given page32 for a
                        bzImage, pvh for ELF, tree for arm64
  --guest SIZE          guest memory, from address 0; 1G if not given
  --map RANGES          where it has memory: START:SIZE,START:SIZE..
  --rows ROWS           the memory map for the guest: START:SIZE:TYPE,..; the
                        ranges with type 1 if not given
  --at ADDRESS          of the command line
  --ramdisk-at ADDRESS  of the ramdisk
  --data-at ADDRESS     of the zero page, the start block or the device tree
  --rsdp ADDRESS        pvh: of the RSDP, which is not put there
  --limit BYTES         ELF, arm64: the longest line; 2047 if not given
  --offset, --base, --highmem, --format   as of a load
Exit status: 0 for an accepted boot, 1 for a refused one, 2 for wrong usage.
";

/// How the kernel is entered.
#[derive(Clone, Copy, Debug, PartialEq)]
pub enum Entry {
    Page32,
    Page64,
    Pvh,
    Tree,
}

/// A boot, and what it is given.
#[derive(Clone, Debug, Default, PartialEq)]
pub struct Boot {
    /// What it has in common with a load; without `guest`, if a map says it.
    pub load: Load,
    pub entry: Option<Entry>,
    pub ramdisk: Option<PathBuf>,
    pub tree: Option<PathBuf>,
    /// The ranges of guest memory, if they are not all of it.
    pub map: Option<Vec<(GuestAddress, u64)>>,
    pub rows: Option<Vec<(GuestAddress, u64, u32)>>,
    pub ramdisk_at: Option<GuestAddress>,
    pub data_at: Option<GuestAddress>,
    pub rsdp: Option<GuestAddress>,
    pub limit: Option<u32>,
}

/// Reads the words after `boot`; `None` if they ask for help.
pub fn read(name: &str, words: &[OsString]) -> Result<Option<Boot>, lexopt::Error> {
    let mut parser = lexopt::Parser::from_args(words);
    let parser = &mut parser;
    let mut boot = Boot::default();
    let mut guest = None;
    while let Some(word) = parser.next()? {
        match word {
            Long("help") | Short('h') => return Ok(None),
            Long("guest") => guest = Some(number(parser)?),
            Long("offset") => boot.load.offset = address(parser)?,
            Long("base") => boot.load.base = address(parser)?,
            Long("highmem") => boot.load.highmem = address(parser)?,
            Long("cmdline") => boot.load.cmdline = Some(parser.value()?.into_string()?),
            Long("at") => boot.load.at = address(parser)?,
            Long("format") => boot.load.format = format(&parser.value()?.into_string()?)?,
            Long("entry") => boot.entry = Some(entry(&parser.value()?.into_string()?)?),
            Long("ramdisk") => boot.ramdisk = Some(parser.value()?.into()),
            Long("tree") => boot.tree = Some(parser.value()?.into()),
            Long("map") => boot.map = Some(ranges(&parser.value()?.into_string()?)?),
            Long("rows") => boot.rows = Some(rows(&parser.value()?.into_string()?)?),
            Long("ramdisk-at") => boot.ramdisk_at = address(parser)?,
            Long("data-at") => boot.data_at = address(parser)?,
            Long("rsdp") => boot.rsdp = address(parser)?,
            Long("limit") => boot.limit = Some(limit(number(parser)?)?),
            Value(file) => {
                let file = file.to_string_lossy();
                return Err(format!(
                    "the image comes by standard input, and {file} is one word too many: {name} boot [OPTIONS] < IMAGE"
                )
                .into());
            }
            _ => return Err(word.unexpected()),
        }
    }
    // a map says how far guest memory goes
    let end = boot.map.as_ref().map(|map| {
        let ends = map
            .iter()
            .map(|(start, size)| start.0.saturating_add(*size));
        ends.max().unwrap_or(0)
    });
    boot.load.guest = guest.or(end).unwrap_or(boot.load.guest);
    Ok(Some(boot))
}

fn number(parser: &mut lexopt::Parser) -> Result<u64, lexopt::Error> {
    number_of(&parser.value()?.into_string()?)
}

fn address(parser: &mut lexopt::Parser) -> Result<Option<GuestAddress>, lexopt::Error> {
    number(parser).map(|number| Some(GuestAddress(number)))
}

fn number_of(text: &str) -> Result<u64, lexopt::Error> {
    sizes::number(text).ok_or_else(|| {
        format!("'{text}' is no size or address: write one as 4096, 64M or 0x100000").into()
    })
}

fn limit(number: u64) -> Result<u32, lexopt::Error> {
    number
        .try_into()
        .map_err(|_| format!("a limit of {number} bytes is 4G or more").into())
}

fn entry(text: &str) -> Result<Entry, lexopt::Error> {
    match text {
        "page32" => Ok(Entry::Page32),
        "page64" => Ok(Entry::Page64),
        "pvh" => Ok(Entry::Pvh),
        "tree" => Ok(Entry::Tree),
        _ => Err(format!("'{text}' is no entry: there are page32, page64, pvh and tree").into()),
    }
}

/// Numbers with a colon between them, in rows with a comma between them; none of an empty text.
fn lists<const N: usize>(text: &str, form: &str) -> Result<Vec<[u64; N]>, lexopt::Error> {
    let rows = text.split(',').filter(|_| !text.is_empty());
    rows.map(|row| {
        let numbers: Vec<u64> = row.split(':').map(number_of).collect::<Result<_, _>>()?;
        numbers
            .try_into()
            .map_err(|_| format!("'{row}' is not written as {form}").into())
    })
    .collect()
}

fn ranges(text: &str) -> Result<Vec<(GuestAddress, u64)>, lexopt::Error> {
    let rows = lists(text, "START:SIZE")?;
    let range = |[start, size]: [u64; 2]| (GuestAddress(start), size);
    Ok(rows.into_iter().map(range).collect())
}

fn rows(text: &str) -> Result<Vec<(GuestAddress, u64, u32)>, lexopt::Error> {
    let row = |[start, size, kind]: [u64; 3]| {
        let kind = kind
            .try_into()
            .map_err(|_| format!("the type {kind} of a row is 4G or more"))?;
        Ok((GuestAddress(start), size, kind))
    };
    lists(text, "START:SIZE:TYPE")?
        .into_iter()
        .map(row)
        .collect()
}

#[cfg(test)]
mod tests {
    use super::*;
    use crate::arguments::Format;

    fn read_words(words: &str) -> Result<Option<Boot>, lexopt::Error> {
        let words: Vec<_> = words.split_whitespace().map(OsString::from).collect();
        read("./rekusoyen", &words)
    }

    #[test]
    fn all_options_are_read() {
        let words = "--guest 64M --offset=0x10 --base 2M --highmem 1K --cmdline quiet --at 7 --format arm64 \
            --entry tree --ramdisk disk --tree blob --map 0:4K,1M:2M --rows 0:4K:1,1M:2M:2 --ramdisk-at 8 \
            --data-at 9 --rsdp 10 --limit 11";
        let at = GuestAddress;
        let expected = Boot {
            load: Load {
                guest: 64 << 20,
                offset: Some(at(16)),
                base: Some(at(2 << 20)),
                highmem: Some(at(1024)),
                cmdline: Some("quiet".to_string()),
                at: Some(at(7)),
                format: Format::Arm64,
                verbose: false,
            },
            entry: Some(Entry::Tree),
            ramdisk: Some("disk".into()),
            tree: Some("blob".into()),
            map: Some(vec![(at(0), 4096), (at(1 << 20), 2 << 20)]),
            rows: Some(vec![(at(0), 4096, 1), (at(1 << 20), 2 << 20, 2)]),
            ramdisk_at: Some(at(8)),
            data_at: Some(at(9)),
            rsdp: Some(at(10)),
            limit: Some(11),
        };
        assert_eq!(read_words(words).unwrap(), Some(expected));
        assert_eq!(read_words("").unwrap(), Some(Boot::default()));
        assert_eq!(read_words("--at 3 --help").unwrap(), None);
    }

    #[test]
    fn guest_memory_goes_as_far_as_its_map() {
        let guest = |words| read_words(words).unwrap().unwrap().load.guest;
        assert_eq!(guest("--map 1M:1M,4M:2M"), 6 << 20);
        assert_eq!(guest("--map 1M:1M --guest 8M"), 8 << 20);
        assert_eq!(guest("--rows 0:1:1"), 1 << 30);
        assert_eq!(read_words("--map=").unwrap().unwrap().map, Some(vec![]));
    }

    #[test]
    fn wrong_words_are_told() {
        for (words, told) in [
            ("vmlinuz", "./rekusoyen boot [OPTIONS] < IMAGE"),
            ("--colour", "invalid option '--colour'"),
            ("--entry bios", "'bios' is no entry"),
            ("--map 4K", "'4K' is not written as START:SIZE"),
            ("--map 0:x", "'x' is no size or address"),
            ("--rows 0:4K", "'0:4K' is not written as START:SIZE:TYPE"),
            (
                "--rows 0:4K:4G",
                "the type 4294967296 of a row is 4G or more",
            ),
            ("--limit 4G", "4G or more"),
            ("--format pe", "'pe' is no format"),
        ] {
            let error = read_words(words).unwrap_err().to_string();
            assert!(error.contains(told), "{words}: {error}");
        }
    }

    #[test]
    fn help_fits_on_a_screen() {
        assert!(HELP.lines().count() <= 24);
        assert!(HELP.lines().all(|line| line.chars().count() < 80));
    }
}
