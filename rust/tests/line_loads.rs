//! A line put into guest memory that is a slice.

mod images;

use images::{fresh, fresh_with};
use rekusoyen::loader::{load_cmdline_into, Cmdline, Error};
use rekusoyen::GuestAddress;

const ROOM: usize = 16;

#[test]
fn a_line_and_its_zero_are_written_where_they_have_room() {
    let texts: [(&str, &[u8]); 3] = [("", b"\0"), ("quiet", b"quiet\0"), ("a -- b", b"a -- b\0")];
    for (text, written) in texts {
        let line = Cmdline::try_from(text, 20).unwrap();
        let last = ROOM - written.len();
        for address in [0, 1, last] {
            let mut guest = fresh(ROOM);
            let answer = load_cmdline_into(&mut guest, GuestAddress(address as u64), &line);
            assert_eq!(answer, Ok(()));
            assert_eq!(guest, fresh_with(ROOM, &[(address, written)]));
        }
        for address in [last as u64 + 1, ROOM as u64, 1 << 40, u64::MAX] {
            refused(ROOM, address, &line, Error::CommandLineOverflow);
        }
        refused(0, 0, &line, Error::CommandLineOverflow);
    }
}

#[test]
fn a_line_that_cannot_be_written_is_refused_before_its_room_is_asked() {
    let mut init_alone = Cmdline::new(20).unwrap();
    init_alone.insert_init_args("single").unwrap();
    let zero_inside = Cmdline::try_from("a\0b", 20).unwrap();
    for line in [init_alone, zero_inside] {
        for address in [0, u64::MAX] {
            refused(ROOM, address, &line, Error::InvalidCommandLine);
        }
    }
}

#[track_caller]
fn refused(room: usize, address: u64, line: &Cmdline, error: Error) {
    let mut guest = fresh(room);
    let answer = load_cmdline_into(&mut guest, GuestAddress(address), line);
    assert_eq!(answer, Err(error));
    assert_eq!(guest, fresh(room));
}
