//! The published crate's tests and examples over `rekusoyen`: `upstream-tests` puts the modules beside this file.

use std::fmt::Debug;

use rekusoyen::cmdline::Cmdline;

pub mod cmdline;
pub mod configurator;
pub mod loader;

/// One of the two texts of a line, as the line's debug form shows it. The published crate's tests read private fields for them.
#[derive(Debug)]
pub struct Shown(String);

impl PartialEq<&str> for Shown {
    fn eq(&self, text: &&str) -> bool {
        self.0 == format!("{text:?}")
    }
}

pub fn boot_args(line: &Cmdline) -> Shown {
    shown(line, "Cmdline { boot_args: ", ", init_args: ")
}

pub fn init_args(line: &Cmdline) -> Shown {
    shown(line, ", init_args: ", ", capacity: ")
}

/// What stands between two words of the debug form.
fn shown(line: &dyn Debug, before: &str, behind: &str) -> Shown {
    let form = format!("{line:?}");
    let (_, rest) = form.split_once(before).expect("the field");
    let (text, _) = rest.rsplit_once(behind).expect("what follows it");
    Shown(text.to_string())
}
