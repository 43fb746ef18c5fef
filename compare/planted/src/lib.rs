//! The second program with mistakes planted: `build.rs` makes a copy in which each edit of `mistakes.txt` can be switched on.

#![allow(warnings)] // the edits leave parentheses and branches that nobody would write

include!(concat!(env!("OUT_DIR"), "/lib.rs"));

use std::sync::atomic::{AtomicUsize, Ordering};

static SWITCHED_ON: AtomicUsize = AtomicUsize::new(usize::MAX);

/// Switches one mistake on, by its place in the list, and every other off.
pub fn switch_on(mistake: usize) {
    SWITCHED_ON.store(mistake, Ordering::Relaxed);
}

fn is_on(mistake: usize) -> bool {
    SWITCHED_ON.load(Ordering::Relaxed) == mistake
}
