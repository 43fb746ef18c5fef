//! A picture of guest memory, and the table of what is in it.

use std::fmt::Write;
use std::ops::Range;

use crate::sizes;

/// A piece, and where it is.
#[derive(Clone, Debug, PartialEq)]
pub struct Shown {
    pub name: &'static str,
    pub range: Range<u128>,
}

const FREE: &str = "";
const HOLE: &str = "hole";

/// What is in guest memory from address to address, each stretch once, from 0 up to its end.
fn stretches(size: u128, ranges: &[Range<u128>], pieces: &[Shown]) -> Vec<Shown> {
    let all = pieces.iter().map(|piece| &piece.range).chain(ranges);
    let mut ends: Vec<u128> = all.flat_map(|range| [range.start, range.end]).collect();
    ends.extend([0, size]);
    ends.sort_unstable();
    ends.dedup();
    let name_at = |at: u128| {
        let piece = pieces.iter().find(|piece| piece.range.contains(&at));
        let is_memory = ranges.iter().any(|range| range.contains(&at));
        piece.map_or(if is_memory { FREE } else { HOLE }, |piece| piece.name)
    };
    let mut found: Vec<Shown> = Vec::new();
    for (start, end) in ends.iter().zip(ends.iter().skip(1)) {
        let name = name_at(*start);
        match found.last_mut() {
            Some(last) if last.name == name => last.range.end = *end,
            _ => found.push(Shown {
                name,
                range: *start..*end,
            }),
        }
    }
    found
}

/// Guest memory of a size with its ranges, the highest address on top.
pub fn picture(size: u64, ranges: &[Range<u128>], pieces: &[Shown]) -> String {
    let mut text = String::new();
    let found = stretches(size.into(), ranges, pieces);
    let widest = |names: &mut dyn Iterator<Item = usize>| names.max().unwrap_or(0);
    let width = widest(&mut found.iter().map(|stretch| stretch.name.len()));
    let top = found.last().map_or(0, |stretch| stretch.range.end);
    let column = format!("{top:#x}").len();
    let border = |text: &mut String, address: u128| {
        let _ = writeln!(text, "{address:>#column$x} +-{:-<width$}-+", "");
    };
    border(&mut text, top);
    for Shown { name, range } in found.into_iter().rev() {
        let bytes = sizes::shown((range.end - range.start) as u64);
        let (side, remark) = match name {
            FREE => ('|', " free"),
            HOLE => (':', ""),
            _ => ('|', ""),
        };
        let _ = writeln!(
            text,
            "{:column$} {side} {name:width$} {side} {bytes}{remark}",
            ""
        );
        border(&mut text, range.start);
    }
    text
}

/// A line for each piece, from the lowest up.
pub fn table(pieces: &[Shown]) -> String {
    let mut pieces = pieces.to_vec();
    pieces.sort_by_key(|piece| (piece.range.start, piece.range.end));
    let mut rows = vec![["piece", "from", "to", "bytes"].map(str::to_string)];
    rows.extend(pieces.iter().map(|Shown { name, range }| {
        [
            name.to_string(),
            format!("{:#x}", range.start),
            format!("{:#x}", range.end),
            (range.end - range.start).to_string(),
        ]
    }));
    let width = |i: usize| rows.iter().map(|row| row[i].len()).max().unwrap_or(0);
    let widths = [0, 1, 2].map(width);
    let line = |row: &[String; 4]| {
        let [name, from, to, bytes] = row;
        let [a, b, c] = widths;
        format!("{name:a$}  {from:b$}  {to:c$}  {bytes}\n")
    };
    rows.iter().map(line).collect()
}

#[cfg(test)]
mod tests {
    use super::*;

    fn piece(name: &'static str, range: Range<u128>) -> Shown {
        Shown { name, range }
    }

    #[test]
    fn pieces_free_memory_and_holes_are_drawn() {
        let pieces = [
            piece("kernel", 0x1000..0x1200),
            piece("kernel", 0x1100..0x3000),
            piece("line", 0x800..0x806),
        ];
        let drawn = picture(0x5000, &[0..0x3000, 0x4000..0x5000], &pieces);
        let expected = "\
0x5000 +--------+
       |        | 4K free
0x4000 +--------+
       : hole   : 4K
0x3000 +--------+
       | kernel | 8K
0x1000 +--------+
       |        | 2042 bytes free
 0x806 +--------+
       | line   | 6 bytes
 0x800 +--------+
       |        | 2K free
   0x0 +--------+
";
        assert_eq!(drawn, expected);
        let rows = "\
piece   from    to      bytes
line    0x800   0x806   6
kernel  0x1000  0x1200  512
kernel  0x1100  0x3000  7936
";
        assert_eq!(table(&pieces), rows);
    }

    #[test]
    fn no_memory_is_drawn_as_a_line() {
        assert_eq!(picture(0, &[], &[]), "0x0 +--+\n");
        assert_eq!(table(&[]), "piece  from  to  bytes\n");
    }
}
