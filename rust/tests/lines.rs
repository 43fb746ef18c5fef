//! Lines: every method, accepted and refused, and what a refused call leaves.

use rekusoyen::cmdline::{Cmdline, Error, Result};
use rekusoyen::{GuestAddress, Refusal};

/// A line of a capacity with boot text and init text.
fn line(capacity: usize, boot: &str, init: &str) -> Cmdline {
    let mut line = Cmdline::new(capacity).unwrap();
    if !boot.is_empty() {
        line.insert_str(boot).unwrap();
    }
    if !init.is_empty() {
        line.insert_init_args(init).unwrap();
    }
    line
}

/// What a line is, whether it can be written or not.
fn shown(boot: &str, init: &str, capacity: usize) -> String {
    format!("Cmdline {{ boot_args: {boot:?}, init_args: {init:?}, capacity: {capacity} }}")
}

#[test]
fn a_capacity_is_1_to_16384() {
    for capacity in [1, 2, 4097, 16383, 16384] {
        let new = Cmdline::new(capacity).unwrap();
        assert_eq!(format!("{new:?}"), shown("", "", capacity));
        assert_eq!(new.as_cstring().unwrap().as_bytes_with_nul(), b"\0");
    }
    for capacity in [0, 16385, usize::MAX] {
        assert_eq!(Cmdline::new(capacity), Err(Error::InvalidCapacity));
        assert_eq!(Cmdline::try_from("", capacity), Err(Error::InvalidCapacity));
    }
}

/// A call that was made on a line, and what the line was before and after it.
struct Called {
    answer: Result<()>,
    before: String,
    after: String,
    capacity: usize,
}

/// Makes a call on a line of a capacity with boot text and init text.
fn on(
    capacity: usize,
    boot: &str,
    init: &str,
    call: impl FnOnce(&mut Cmdline) -> Result<()>,
) -> Called {
    let mut line = line(capacity, boot, init);
    Called {
        answer: call(&mut line),
        before: shown(boot, init, capacity),
        after: format!("{line:?}"),
        capacity,
    }
}

impl Called {
    #[track_caller]
    fn gives(&self, boot: &str, init: &str) {
        assert_eq!(self.answer, Ok(()));
        assert_eq!(self.after, shown(boot, init, self.capacity));
    }

    #[track_caller]
    fn is_refused(&self, error: Error) {
        assert_eq!(self.answer, Err(error));
        assert_eq!(self.after, self.before);
    }
}

#[test]
fn insert() {
    on(8, "", "", |l| l.insert("foo", "bar")).gives("foo=bar", "");
    on(7, "", "", |l| l.insert("foo", "bar")).is_refused(Error::TooLarge);
    on(10, "quiet", "", |l| l.insert("a", "b")).gives("quiet a=b", "");
    on(9, "quiet", "", |l| l.insert("a", "b")).is_refused(Error::TooLarge);
    // init text counts, its separator too
    on(11, "a", "z", |l| l.insert("b", "c")).gives("a b=c", "z");
    on(10, "a", "z", |l| l.insert("b", "c")).is_refused(Error::TooLarge);
    // an empty key and value, and what a key may have
    on(9, "", "", |l| l.insert("", "")).gives("=", "");
    on(9, "", "", |l| l.insert("!\"~", "=")).gives("!\"~==", "");
    // quotes at the ends protect spaces
    on(9, "", "", |l| l.insert("a", "\"b c\"")).gives("a=\"b c\"", "");
    on(9, "a", "", |l| l.insert("a", "b c")).is_refused(Error::NoQuoteSpace);
    on(9, "a", "", |l| l.insert("a", "\" ")).is_refused(Error::NoQuoteSpace);
    on(9, "a", "", |l| l.insert("a", "b\"c")).is_refused(Error::InvalidQuote);
    on(9, "a", "", |l| l.insert("b c", "d")).is_refused(Error::HasSpace);
    on(9, "a", "", |l| l.insert("b=", "c")).is_refused(Error::HasEquals);
    on(9, "a", "", |l| l.insert("\u{7f}", "c")).is_refused(Error::InvalidAscii);
    on(9, "a", "", |l| l.insert("b", "\n")).is_refused(Error::InvalidAscii);
    // the key is asked before the value, and each test over the whole text before the next
    on(9, "a", "", |l| l.insert("b=", "\n")).is_refused(Error::HasEquals);
    on(9, "a", "", |l| l.insert("= ", "c")).is_refused(Error::HasSpace);
    on(9, "a", "", |l| l.insert(" \n", "c")).is_refused(Error::InvalidAscii);
    on(9, "a", "", |l| l.insert("b", " \" ")).is_refused(Error::InvalidQuote);
}

#[test]
fn insert_multiple() {
    on(6, "", "", |l| l.insert_multiple("a", &["b", "c"])).gives("a=b,c", "");
    on(5, "", "", |l| l.insert_multiple("a", &["b", "c"])).is_refused(Error::TooLarge);
    on(9, "", "", |l| l.insert_multiple("a", &["b"])).gives("a=b", "");
    on(9, "", "", |l| l.insert_multiple("a", &["", "", ""])).gives("a=,,", "");
    let missing = Error::MissingVal("a".to_string());
    on(9, "x", "y", |l| l.insert_multiple("a", &[])).is_refused(missing);
    on(9, "x", "", |l| l.insert_multiple("a=", &[])).is_refused(Error::HasEquals);
    on(9, "x", "", |l| l.insert_multiple("a ", &["b"])).is_refused(Error::HasSpace);
    on(9, "x", "", |l| l.insert_multiple("a", &["b", "c d"])).is_refused(Error::NoQuoteSpace);
    on(9, "x", "", |l| l.insert_multiple("a", &["b", "c\"d"])).is_refused(Error::InvalidQuote);
    on(9, "x", "", |l| l.insert_multiple("a", &["b", "ä"])).is_refused(Error::InvalidAscii);
    // values are asked in turn
    on(9, "x", "", |l| l.insert_multiple("a", &["b c", "ä"])).is_refused(Error::NoQuoteSpace);
}

#[test]
fn insert_str() {
    on(9, "", "", |l| l.insert_str("a=b c")).gives("a=b c", "");
    on(9, "", "", |l| l.insert_str("\t\n\x0b\x0c\r a ")).gives("a", "");
    // an empty text is accepted, and costs a space behind another
    on(3, "a", "", |l| l.insert_str("")).gives("a ", "");
    on(2, "a", "", |l| l.insert_str("")).is_refused(Error::TooLarge);
    on(1, "", "", |l| l.insert_str(" ")).gives("", "");
    on(9, "a", "", |l| l.insert_str("b\0")).is_refused(Error::InvalidAscii);
    on(9, "a", "", |l| l.insert_str("b\nc")).is_refused(Error::InvalidAscii);
    // a blank of Unicode's is no blank
    on(9, "a", "", |l| l.insert_str("\u{a0}b")).is_refused(Error::InvalidAscii);
}

#[test]
fn insert_init_args() {
    on(7, "a", "", |l| l.insert_init_args("b")).gives("a", "b");
    on(6, "a", "", |l| l.insert_init_args("b")).is_refused(Error::TooLarge);
    // the separator is charged once
    on(9, "a", "b", |l| l.insert_init_args("c")).gives("a", "b c");
    on(8, "a", "b", |l| l.insert_init_args("c")).is_refused(Error::TooLarge);
    on(6, "a", "", |l| l.insert_init_args("")).gives("a", "");
    on(5, "a", "", |l| l.insert_init_args("")).is_refused(Error::TooLarge);
    on(9, "", "", |l| l.insert_init_args("  b\n")).gives("", "b");
    on(9, "a", "", |l| l.insert_init_args("b\0")).is_refused(Error::InvalidAscii);
}

#[test]
fn add_virtio_mmio_device() {
    let devices = [
        (1, 0, 1, None, "1@0x0:1"),
        (1 << 10, 0x1000, 5, Some(42), "1K@0x1000:5:42"),
        (3 << 20, 0xd000_0000, 5, None, "3M@0xd0000000:5"),
        (4 << 30, 0xabcdef, 0, Some(0), "4G@0xabcdef:0:0"),
        ((1 << 30) + 1, 0, 0, None, "1073741825@0x0:0"),
        (
            u64::MAX,
            u64::MAX,
            u32::MAX,
            Some(u32::MAX),
            "18446744073709551615@0xffffffffffffffff:4294967295:4294967295",
        ),
    ];
    for (size, address, irq, id, text) in devices {
        let device = format!("virtio_mmio.device={text}");
        let add = |l: &mut Cmdline| l.add_virtio_mmio_device(size, GuestAddress(address), irq, id);
        let fits = device.len() + 1;
        on(fits, "", "", add).gives(&device, "");
        on(fits - 1, "", "", add).is_refused(Error::TooLarge);
        on(100, "a", "z", add).gives(&format!("a {device}"), "z");
    }
    let add_nothing = |l: &mut Cmdline| l.add_virtio_mmio_device(0, GuestAddress(0), 1, None);
    on(1, "", "", add_nothing).is_refused(Error::MmioSize);
}

#[test]
fn try_from() {
    let texts = [
        ("", 1, "", ""),
        (" ", 1, "", ""),
        ("a -- b", 7, "a", "b"),
        ("a\t -- \nb ", 7, "a", "b"),
        ("a=\"x -- y\" -- z", 16, "a=\"x -- y\"", "z"),
        ("a -- b -- c", 12, "a", "b -- c"),
        ("a --b-- c", 10, "a --b-- c", ""),
        (" -- b", 6, "", "b"),
        // no other test: it may hold what no insertion would
        ("\0é", 4, "\0é", ""),
    ];
    for (text, capacity, boot, init) in texts {
        let line = Cmdline::try_from(text, capacity).unwrap();
        assert_eq!(format!("{line:?}"), shown(boot, init, capacity));
        assert_eq!(
            Cmdline::try_from(text, capacity - 1),
            Err(Error::InvalidCapacity),
            "{text:?}"
        );
    }
    let longest = "x".repeat(16383);
    let line = Cmdline::try_from(&longest, 16384).unwrap();
    assert_eq!(line.as_cstring().unwrap().as_bytes(), longest.as_bytes());
    assert_eq!(
        Cmdline::try_from(&"x".repeat(16384), 16384),
        Err(Error::InvalidCapacity)
    );
}

#[test]
fn a_line_is_written_with_its_zero_or_refused() {
    let written: [(Cmdline, Result<&[u8]>); 5] = [
        (line(9, "", ""), Ok(b"\0")),
        (line(9, "a", ""), Ok(b"a\0")),
        (line(9, "a", "z"), Ok(b"a -- z\0")),
        (line(9, "", "z"), Err(Error::NoBootArgsInserted)),
        (
            Cmdline::try_from("a\0b", 9).unwrap(),
            Err(Error::NullTerminator),
        ),
    ];
    for (line, answer) in written {
        let before = format!("{line:?}");
        let text = line.as_cstring();
        assert_eq!(
            text.as_ref().map(|text| text.as_bytes_with_nul()),
            answer.as_ref().copied()
        );
        assert_eq!(format!("{line:?}"), before);
        let bytes = Vec::<u8>::try_from(line);
        assert_eq!(bytes.as_deref(), answer.as_ref().copied());
    }
}

#[test]
fn lines_are_equal_when_what_they_are_written_as_is() {
    let in_words = line(30, "a", "");
    let mut by_words = in_words.clone();
    by_words.insert_str("b").unwrap();
    // a clone is a line of its own
    assert_eq!(in_words, line(9, "a", ""));
    assert_eq!(by_words, line(9, "a b", ""));
    assert_ne!(by_words, in_words);
    assert_ne!(line(9, "a", "z"), line(9, "a", "y"));
    // the parts differ, the text is one
    assert_eq!(line(9, "a -- z", ""), line(9, "a", "z"));
    // lines that cannot be written: equal where the reason is
    let zeros = ["\0", "a\0b -- c"].map(|text| Cmdline::try_from(text, 20).unwrap());
    assert_eq!(line(9, "", "y"), line(9, "", "z"));
    assert_eq!(zeros[0], zeros[1]);
    assert_ne!(zeros[0], line(9, "", "z"));
    assert_ne!(line(9, "", ""), line(9, "", "z"));
}

#[test]
fn texts_may_be_strings() {
    let mut line = Cmdline::new(50).unwrap();
    line.insert(String::from("a"), String::from("b")).unwrap();
    line.insert_multiple(String::from("c"), &[String::from("d")])
        .unwrap();
    line.insert_str(String::from("e")).unwrap();
    line.insert_init_args(String::from("f")).unwrap();
    assert_eq!(line.as_cstring().unwrap().as_bytes(), b"a=b c=d e -- f");
}

#[test]
fn an_error_names_its_refusal() {
    let rows = [
        (Error::NullTerminator, Refusal::NullTerminator),
        (Error::NoBootArgsInserted, Refusal::NoBootArgsInserted),
        (Error::InvalidCapacity, Refusal::InvalidCapacity),
        (Error::InvalidAscii, Refusal::InvalidAscii),
        (Error::HasSpace, Refusal::HasSpace),
        (Error::HasEquals, Refusal::HasEquals),
        (Error::MissingVal("key".to_string()), Refusal::MissingVal),
        (Error::MmioSize, Refusal::MmioSize),
        (Error::TooLarge, Refusal::TooLarge),
        (Error::NoQuoteSpace, Refusal::NoQuoteSpace),
        (Error::InvalidQuote, Refusal::InvalidQuote),
    ];
    for (error, refusal) in rows {
        assert_eq!(error.refusal(), refusal);
        assert_eq!(error.number(), refusal.number());
    }
}
