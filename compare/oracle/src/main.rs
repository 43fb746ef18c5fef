//! The comparison, with the published crate as one of those asked.

mod guest;
#[cfg(feature = "regions")]
mod layouts;
mod numbers;
mod outside;
mod pages;
mod published;
#[cfg(feature = "regions")]
mod regions;
mod starts;

use driver::backend::Maker;
use driver::cli::{self, InProcess};

fn main() {
    if std::env::args().nth(1).as_deref() == Some("outside") {
        return outside::show_all();
    }
    #[cfg(feature = "regions")]
    if std::env::args().nth(1).as_deref() == Some("layouts") {
        let images: Vec<_> = std::env::args().skip(2).collect();
        std::process::exit(i32::from(!layouts::run(&images)));
    }
    let published: Maker = Box::new(|| Box::new(published::Published::default()));
    cli::main(InProcess {
        published: Some(published),
        library: library(),
    });
}

/// The proved code, where it was linked: over regions of vm-memory, or by its C entry points.
#[cfg(feature = "regions")]
fn library() -> Option<Maker> {
    Some(Box::new(|| Box::new(regions::Regions::default())))
}

#[cfg(all(feature = "library", not(feature = "regions")))]
fn library() -> Option<Maker> {
    Some(Box::new(|| Box::new(proved::Proved)))
}

#[cfg(not(any(feature = "library", feature = "regions")))]
fn library() -> Option<Maker> {
    None
}
