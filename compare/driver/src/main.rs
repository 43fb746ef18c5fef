//! The comparison without the published crate.

use driver::cli::{self, InProcess};

fn main() {
    cli::main(InProcess::default());
}
