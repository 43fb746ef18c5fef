//! What stands in this crate a second time is what the repository has: the refusals and their numbers of the proved catalogue, and
//! the numbers of the C header. It reads files of the repository, and so is no part of a package.

use rekusoyen::{entry, Refusal};

/// The definition that the proved code meets: a line for each refusal, `number_of refusal.NAME = NUMBER`.
const CATALOGUE: &str = include_str!("../../crates/answers/specs/Catalogue.antt");

const HEADER: &str = include_str!("../../c/rekusoyen.h");

/// Name and number of each refusal of the catalogue, in its order.
fn catalogue() -> Vec<(String, u32)> {
    let rows = CATALOGUE.lines().filter_map(|line| {
        let (_, row) = line.split_once(" refusal.")?;
        let (name, number) = row.split_once(" = ")?;
        Some((name.to_string(), number.parse().ok()?))
    });
    rows.collect()
}

#[test]
fn refusals_are_those_of_the_catalogue() {
    let here = Refusal::ALL.iter();
    let here: Vec<_> = here
        .map(|refusal| (format!("{refusal:?}"), refusal.number()))
        .collect();
    assert_eq!(here, catalogue());
}

#[test]
fn answers_of_the_header_are_those_of_the_catalogue() {
    let rows = HEADER.lines().filter_map(|line| {
        let (name, rest) = line.trim().strip_prefix("REKUSOYEN_")?.split_once(" = ")?;
        let digits = rest.split(|c: char| !c.is_ascii_digit()).next()?;
        Some((name.to_string(), digits.parse().ok()?))
    });
    let rows: Vec<(String, u32)> = rows.collect();
    let accepted = [("ACCEPTED".to_string(), 0)];
    let refused = catalogue()
        .into_iter()
        .map(|(name, number)| (in_capitals(&name), number));
    let wanted: Vec<_> = accepted.into_iter().chain(refused).collect();
    assert_eq!(rows, wanted);
}

/// InvalidElfMagicNumber becomes INVALID_ELF_MAGIC_NUMBER, and No64BitEntry NO_64_BIT_ENTRY.
fn in_capitals(name: &str) -> String {
    let mut capitals = String::new();
    for letter in name.chars() {
        let in_number = capitals.ends_with(|c: char| c.is_ascii_digit());
        let is_first = letter.is_uppercase() || (letter.is_ascii_digit() && !in_number);
        if is_first && !capitals.is_empty() {
            capitals.push('_');
        }
        capitals.extend(letter.to_uppercase());
    }
    capitals
}

/// The header's table has each answer's name and sentence: those of this crate, and one for an accepted call.
#[test]
fn sentences_of_the_header_are_those_of_this_crate() {
    let rows = HEADER.lines().filter_map(|line| {
        let row = line.trim().strip_prefix("ROW(")?;
        let (name, rest) = row.split_once(", \"")?;
        Some((name, rest.split_once("\")")?.0))
    });
    let rows: Vec<_> = rows.collect();
    assert_eq!(rows[0], ("ACCEPTED", "The call was accepted."));
    let here = Refusal::ALL.iter();
    let here: Vec<_> = here
        .map(|refusal| (in_capitals(&format!("{refusal:?}")), refusal.sentence()))
        .collect();
    let told: Vec<_> = rows[1..]
        .iter()
        .map(|(name, sentence)| (name.to_string(), *sentence))
        .collect();
    assert_eq!(told, here);
}

/// What the header defines a name as.
fn defined(name: &str) -> &'static str {
    let line = HEADER
        .lines()
        .find_map(|line| line.strip_prefix(&format!("#define {name} ")));
    let line = line.unwrap_or_else(|| panic!("the header does not define {name}"));
    line.split("/*").next().unwrap_or(line).trim()
}

#[test]
fn sizes_flags_and_codes_are_those_of_the_header() {
    let numbers = [
        ("LINE_LIMIT", entry::LIMIT),
        ("SETUP_HEADER_SIZE", entry::SETUP_HEADER_SIZE),
        ("PAGE_SIZE", entry::PAGE_SIZE),
        ("PAGE_ROWS", entry::PAGE_ROWS),
        ("MAP_RANGES", entry::MAP_RANGES),
        ("KERNEL_NUMBERS", entry::KERNEL_NUMBERS),
        ("PLAN_NUMBERS", entry::PLAN_NUMBERS),
        ("PART_NUMBERS", entry::PART_NUMBERS),
        ("BOOTED_NUMBERS", entry::BOOTED_NUMBERS),
        ("STATE_NUMBERS", entry::STATE_NUMBERS),
        ("STEP_NUMBERS", entry::STEP_NUMBERS),
        ("NOTE_NUMBERS", entry::NOTE_NUMBERS),
        ("PAGE_NUMBERS", entry::PAGE_NUMBERS),
        ("START_BLOCK_NUMBERS", entry::START_BLOCK_NUMBERS),
        ("START_ROW_NUMBERS", entry::START_ROW_NUMBERS),
        ("JOB_LIMIT", entry::JOB_LIMIT),
        ("JOB_TEXT_SIZE", entry::JOB_TEXT_SIZE),
    ];
    for (name, number) in numbers {
        let name = format!("REKUSOYEN_{name}");
        assert_eq!(defined(&name), number.to_string(), "{name}");
    }
    let codes = [
        ("UNKNOWN", entry::UNKNOWN.into()),
        ("ELF", entry::ELF.into()),
        ("BZIMAGE", entry::BZIMAGE.into()),
        ("ARM64", entry::ARM64.into()),
        ("OFFSET_GIVEN", entry::OFFSET_GIVEN.into()),
        ("HIGHMEM_GIVEN", entry::HIGHMEM_GIVEN.into()),
        ("LIMIT_GIVEN", entry::LIMIT_GIVEN.into()),
        ("ENTRY_64_BIT", entry::ENTRY_64_BIT.into()),
        ("PVH_IGNORED", entry::PVH_IGNORED),
        ("PVH_NOT_PRESENT", entry::PVH_NOT_PRESENT),
        ("PVH_PRESENT", entry::PVH_PRESENT),
    ];
    for (name, code) in codes {
        let name = format!("REKUSOYEN_{name}");
        assert_eq!(defined(&name), format!("{code}u"), "{name}");
    }
    assert_eq!(
        defined("REKUSOYEN_LINE_SIZE"),
        "(24 + 2 * REKUSOYEN_LINE_LIMIT)"
    );
    assert_eq!(entry::LINE_SIZE, 24 + 2 * entry::LIMIT);
    assert_eq!(
        defined("REKUSOYEN_PAGE_READ_ROWS"),
        "(3 * REKUSOYEN_PAGE_ROWS)"
    );
    assert_eq!(entry::PAGE_READ_ROWS, 3 * entry::PAGE_ROWS);
    assert_eq!(defined("REKUSOYEN_LONGEST_SLICE"), "((uint64_t)1 << 40)");
    assert_eq!(entry::LONGEST_SLICE, 1 << 40);
}
