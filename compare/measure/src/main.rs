//! The measurement without the published crate.

fn main() {
    measure::run(None);
}
