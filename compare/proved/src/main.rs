//! The comparison with the proved library, and without the published crate.

use driver::cli::{self, InProcess};
use proved::Proved;

fn main() {
    cli::main(InProcess {
        published: None,
        library: Some(Box::new(|| Box::new(Proved))),
    });
}
