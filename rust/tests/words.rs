//! The words of a line, with key and value; and a line that was built, read back.

use rekusoyen::cmdline::Cmdline;
use rekusoyen::words::{words, UnclosedQuote};
use rekusoyen::Refusal;

/// A word as it is told: where it starts, its key, and its value if there is one.
type Told<'a> = (usize, &'a str, Option<&'a str>);

fn check(line: &str, wanted: &[Told]) {
    let text = |bytes| std::str::from_utf8(bytes).expect("the line is text");
    let told = words(line.as_bytes()).expect("all quotes are closed");
    assert_eq!(told.len(), wanted.len(), "{line:?}");
    let told: Vec<Told> = told
        .map(|word| {
            let value = word.value.map(text);
            let sign = value.map_or(String::new(), |value| format!("={value}"));
            assert_eq!(text(word.text), format!("{}{sign}", text(word.key)));
            (word.start, text(word.key), value)
        })
        .collect();
    assert_eq!(told, wanted, "{line:?}");
}

#[test]
fn words_part_at_spaces_and_split_at_the_first_sign() {
    check("", &[]);
    check("  ", &[]);
    check("a", &[(0, "a", None)]);
    check(" a  b=c ", &[(1, "a", None), (4, "b", Some("c"))]);
    check("a= =b", &[(0, "a", Some("")), (3, "", Some("b"))]);
    check("a=b=c", &[(0, "a", Some("b=c"))]);
    check("a\tb", &[(0, "a\tb", None)]);
}

#[test]
fn nothing_parts_or_splits_inside_quotes() {
    check("a=\"b c\" d", &[(0, "a", Some("\"b c\"")), (8, "d", None)]);
    check("\"a=b\"=c", &[(0, "\"a=b\"", Some("c"))]);
    check("\" = \"", &[(0, "\" = \"", None)]);
}

#[test]
fn an_unclosed_quote_is_told_with_its_place() {
    for (line, place) in [("\"", 0), ("a \"b c", 2), ("\"a\" \"", 4)] {
        let error = words(line.as_bytes()).unwrap_err();
        assert_eq!(error, UnclosedQuote { place });
        assert_eq!(
            (error.refusal(), error.number()),
            (Refusal::UnclosedQuote, 71)
        );
        let said = format!("The quote at byte {place} is not closed.");
        assert_eq!(error.to_string(), said);
    }
}

#[test]
fn insertions_are_read_back_in_order() {
    let pairs = [
        ("console", "ttyS0"),
        ("", "="),
        ("motd", "\"good = morning\""),
        ("empty", ""),
        ("quotes", "\"\""),
    ];
    for capacity in [80, 16384] {
        let mut line = Cmdline::new(capacity).unwrap();
        for (key, value) in pairs {
            line.insert(key, value).unwrap();
        }
        let written = line.as_cstring().unwrap();
        let told = words(written.as_bytes()).unwrap();
        let wanted = pairs.map(|(key, value)| (key.as_bytes(), Some(value.as_bytes())));
        let told: Vec<_> = told.map(|word| (word.key, word.value)).collect();
        assert_eq!(told, wanted);
    }
}

#[test]
fn the_longest_lines_are_read() {
    let most = "a ".repeat(8192);
    assert_eq!(words(most.as_bytes()).unwrap().count(), 8192);
    let quotes = "\"".repeat(16384);
    let told: Vec<_> = words(quotes.as_bytes()).unwrap().collect();
    assert_eq!((told.len(), told[0].text), (1, quotes.as_bytes()));
    let odd = "\"".repeat(16383);
    assert_eq!(words(odd.as_bytes()).unwrap_err().place, 16382);
}
