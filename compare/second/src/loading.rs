//! Putting a line into guest memory.

use crate::fields::within_limit;
use crate::line::Line;
use crate::map::Map;
use crate::Refusal;

/// Writes the line and its closing zero at `address`, into one of the ranges of `guest` that the numbers of `map` give.
pub fn load_line(guest: &mut [u8], map: &[u64], address: u64, line: &Line) -> Result<(), Refusal> {
    within_limit(guest.len())?;
    let map = Map::from_numbers(map, guest.len())?;
    let Ok(text) = line.written() else {
        return Err(Refusal::InvalidCommandLine);
    };
    let place = map.room(address, text.len() as u64);
    let place = place.ok_or(Refusal::CommandLineOverflow)?;
    guest[place].copy_from_slice(&text);
    Ok(())
}

#[cfg(test)]
mod tests {
    use super::*;
    use crate::map::whole;

    /// A line put into the whole slice.
    fn load_line(guest: &mut [u8], address: u64, line: &Line) -> Result<(), Refusal> {
        let map = whole(guest.len());
        super::load_line(guest, &map, address, line)
    }

    #[test]
    fn the_line_may_end_where_the_guest_does() {
        let line = Line::try_from(b"ab", 64).unwrap();
        let mut guest = [7; 5];
        assert_eq!(load_line(&mut guest, 2, &line), Ok(()));
        assert_eq!(guest, [7, 7, b'a', b'b', 0]);
        let overflow = Err(Refusal::CommandLineOverflow);
        assert_eq!(load_line(&mut guest, 3, &line), overflow);
        assert_eq!(load_line(&mut guest, u64::MAX, &line), overflow);
    }

    #[test]
    fn a_line_that_cannot_be_written_is_refused_first() {
        let invalid = Err(Refusal::InvalidCommandLine);
        for text in [&b" -- x"[..], b"a\0"] {
            let line = Line::try_from(text, 64).unwrap();
            assert_eq!(load_line(&mut [], 0, &line), invalid);
        }
    }

    #[test]
    fn the_line_and_its_zero_lie_within_one_range() {
        let line = Line::try_from(b"ab", 64).unwrap();
        let put = |map: &[u64]| super::load_line(&mut [7; 8], map, 2, &line);
        assert_eq!(put(&[2, 3, 6, 1]), Ok(()));
        for map in [&[2, 2, 5, 3][..], &[3, 5], &[0, 4], &[]] {
            assert_eq!(put(map), Err(Refusal::CommandLineOverflow), "{map:?}");
        }
        let no_line = Line::try_from(b"a\0", 64).unwrap();
        let answer = super::load_line(&mut [7; 8], &[0, 9], 2, &no_line);
        assert_eq!(answer, Err(Refusal::BadMap));
    }
}
