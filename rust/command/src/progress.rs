//! A line on standard error that says how far the command is, if somebody looks.

use std::io::{self, IsTerminal, Write};

/// The line; its words are blanked when it goes.
pub struct Line<W: Write> {
    terminal: Option<W>,
    shown: bool,
}

/// On standard error, if that is a terminal.
pub fn on_terminal() -> Line<io::Stderr> {
    let terminal = io::stderr();
    let watched = terminal.is_terminal();
    Line::on(watched.then_some(terminal))
}

impl<W: Write> Line<W> {
    fn on(terminal: Option<W>) -> Line<W> {
        let shown = false;
        Line { terminal, shown }
    }

    /// Says what was done to so many bytes, in place of what was said before. Where it cannot be written there is nothing to be done.
    pub fn show(&mut self, done: &str, bytes: u64) {
        if let Some(terminal) = &mut self.terminal {
            let _ = write!(terminal, "\r{done} {} MiB", bytes >> 20);
            let _ = terminal.flush();
            self.shown = true;
        }
    }
}

impl<W: Write> Drop for Line<W> {
    fn drop(&mut self) {
        if let (Some(terminal), true) = (&mut self.terminal, self.shown) {
            let _ = write!(terminal, "\r{:24}\r", "");
        }
    }
}

#[cfg(test)]
mod tests {
    use super::*;

    #[test]
    fn what_is_shown_is_blanked() {
        let mut written = Vec::new();
        let mut line = Line::on(Some(&mut written));
        line.show("copied", 3 << 20);
        line.show("copied", (4 << 20) + 5);
        drop(line);
        let blank = " ".repeat(24);
        let wanted = format!("\rcopied 3 MiB\rcopied 4 MiB\r{blank}\r");
        assert_eq!(String::from_utf8(written).unwrap(), wanted);
    }

    #[test]
    fn nothing_is_written_where_nothing_is_shown() {
        let mut written = Vec::new();
        drop(Line::on(Some(&mut written)));
        assert!(written.is_empty());
        Line::<Vec<u8>>::on(None).show("read", 1);
    }
}
