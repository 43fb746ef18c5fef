//! The greatest capacity of a line is one number in the whole repository. It reads files of the repository, and so is no part of a
//! package.

use rekusoyen::cmdline::{Cmdline, Error};
use rekusoyen::entry;

/// Files that have the number themselves, and what stands before it there.
const SAID: [(&str, &str, &str); 6] = [
    (
        "the definition",
        include_str!("../../crates/cmdline/specs/Limit.antt"),
        "\nlimit = ",
    ),
    (
        "the proved code",
        include_str!("../../crates/cmdline/src/lib.rt"),
        "\npub const LIMIT: usize = ",
    ),
    (
        "the C header",
        include_str!("../../c/rekusoyen.h"),
        "\n#define REKUSOYEN_LINE_LIMIT ",
    ),
    (
        "a comment of the C header",
        include_str!("../../c/rekusoyen.h"),
        "/* capacity not 1 to ",
    ),
    (
        "the Rust crate",
        include_str!("../src/entry.rs"),
        "\npub const LIMIT: usize = ",
    ),
    (
        "the second program",
        include_str!("../../compare/second/src/line.rs"),
        "\npub const CAPACITY_LIMIT: u64 = ",
    ),
];

/// Files that take it from one of those, and the line by which they do.
const TAKEN: [(&str, &str, &str); 5] = [
    (
        "the command",
        include_str!("../command/src/load.rs"),
        "\npub const CAPACITY: usize = rekusoyen::entry::LIMIT;\n",
    ),
    (
        "the measurement",
        include_str!("../../compare/measure/src/images.rs"),
        "\npub const CAPACITY: usize = rekusoyen::entry::LIMIT;\n",
    ),
    (
        "the driver's domain",
        include_str!("../../compare/driver/src/domain.rs"),
        "\nuse second::line::CAPACITY_LIMIT;\n",
    ),
    (
        "the driver's generator",
        include_str!("../../compare/driver/src/generate/line.rs"),
        "\nconst TOP: usize = CAPACITY_LIMIT as usize;\n",
    ),
    (
        "the C entry points",
        include_str!("../../crates/capi_lines/src/lines.rt"),
        "\npub(crate) const SIZE: usize = 24 + 2 * LIMIT;\n",
    ),
];

/// The number that stands behind a text, which stands once in a file.
fn number_behind(file: &str, text: &str) -> Option<usize> {
    let (_, behind) = file.split_once(text)?;
    let digits = behind.split(|c: char| !c.is_ascii_digit()).next()?;
    let is_once = !behind.contains(text);
    digits.parse().ok().filter(|_| is_once)
}

#[test]
fn the_limit_is_one_number() {
    for (name, file, text) in SAID {
        assert_eq!(number_behind(file, text), Some(entry::LIMIT), "{name}");
    }
    for (name, file, line) in TAKEN {
        assert_eq!(file.matches(line).count(), 1, "{name}");
    }
}

#[test]
fn the_library_has_that_limit() {
    assert!(Cmdline::new(entry::LIMIT).is_ok());
    assert_eq!(Cmdline::new(entry::LIMIT + 1), Err(Error::InvalidCapacity));
}
