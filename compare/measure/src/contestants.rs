//! Those whose time is taken.

use crate::images::{Pairs, CAPACITY, START};
use crate::{plain, plain_line};
use rekusoyen::cmdline::Cmdline;
use rekusoyen::loader::{load_cmdline_into, BzImage, Elf, KernelLoaderResult};
use rekusoyen::GuestAddress;

/// A load that is ready: it is done anew at each call, into the same guest memory.
pub type Load<'a> = Box<dyn FnMut() -> KernelLoaderResult + 'a>;

/// Lines that are built, which tell their texts with the closing zeros when asked.
pub type Lines = Box<dyn Fn() -> Vec<Vec<u8>>>;

/// A line that is ready to be written: it is written anew at each call, with its closing zero.
pub type Writing = Box<dyn FnMut() -> Vec<u8>>;

/// A line that is ready to be put into guest memory, anew at each call.
pub type Putting<'a> = Box<dyn FnMut() + 'a>;

pub trait Contestant {
    fn name(&self) -> &'static str;

    /// Does it look at the notes of an ELF image?
    fn walks_notes(&self) -> bool {
        true
    }

    /// Makes the load of an ELF image ready. High memory starts where the image's kernel goes.
    fn elf<'a>(&self, guest: &'a mut [u8], image: &'a [u8]) -> Load<'a>;

    /// Makes the load of a bzImage ready, likewise.
    fn bzimage<'a>(&self, guest: &'a mut [u8], image: &'a [u8]) -> Load<'a>;

    /// Builds a line of each list of pairs, by one insertion after the other.
    fn lines(&self, lists: &[Pairs]) -> Lines;

    /// Makes a line from its whole text.
    fn parsed(&self, text: &str) -> Lines;

    /// Makes ready the writing of the line that has this text.
    fn writing(&self, text: &str) -> Writing;

    /// Makes ready the putting of that line to address 0 of guest memory.
    fn putting<'a>(&self, guest: &'a mut [u8], text: &str) -> Putting<'a>;
}

/// The proved library, through the crate `rekusoyen`.
pub struct Library;

impl Contestant for Library {
    fn name(&self) -> &'static str {
        "library"
    }

    fn elf<'a>(&self, guest: &'a mut [u8], image: &'a [u8]) -> Load<'a> {
        let highmem = Some(GuestAddress(START));
        Box::new(move || Elf::load_into(guest, None, image, highmem).expect("a good image"))
    }

    fn bzimage<'a>(&self, guest: &'a mut [u8], image: &'a [u8]) -> Load<'a> {
        let highmem = Some(GuestAddress(START));
        Box::new(move || BzImage::load_into(guest, None, image, highmem).expect("a good image"))
    }

    fn lines(&self, lists: &[Pairs]) -> Lines {
        let build = |pairs: &Pairs| {
            let mut line = Cmdline::new(CAPACITY).expect("a good capacity");
            for (key, value) in pairs {
                line.insert(key, value).expect("a good pair");
            }
            line
        };
        let lines: Vec<_> = lists.iter().map(build).collect();
        let written = |line: &Cmdline| line.as_cstring().expect("a good line");
        let text = move |line: &Cmdline| written(line).into_bytes_with_nul();
        Box::new(move || lines.iter().map(text).collect())
    }

    fn parsed(&self, text: &str) -> Lines {
        let line = Cmdline::try_from(text, CAPACITY).expect("a good text");
        let written = move || line.as_cstring().expect("a good line");
        Box::new(move || vec![written().into_bytes_with_nul()])
    }

    fn writing(&self, text: &str) -> Writing {
        let line = Cmdline::try_from(text, CAPACITY).expect("a good text");
        Box::new(move || {
            let written = line.as_cstring().expect("a good line");
            written.into_bytes_with_nul()
        })
    }

    fn putting<'a>(&self, guest: &'a mut [u8], text: &str) -> Putting<'a> {
        let line = Cmdline::try_from(text, CAPACITY).expect("a good text");
        Box::new(move || {
            load_cmdline_into(guest, GuestAddress(0), &line).expect("a good line");
        })
    }
}

/// The loader and the line that were written for this measurement.
pub struct Plain;

impl Contestant for Plain {
    fn name(&self) -> &'static str {
        "plain"
    }

    fn walks_notes(&self) -> bool {
        false
    }

    fn elf<'a>(&self, guest: &'a mut [u8], image: &'a [u8]) -> Load<'a> {
        Box::new(move || plain::load_elf(guest, None, image, Some(START)).expect("a good image"))
    }

    fn bzimage<'a>(&self, guest: &'a mut [u8], image: &'a [u8]) -> Load<'a> {
        Box::new(move || {
            plain::load_bzimage(guest, None, image, Some(START)).expect("a good image")
        })
    }

    fn lines(&self, lists: &[Pairs]) -> Lines {
        let build = |pairs: &Pairs| {
            let mut line = plain_line::Line::new(CAPACITY).expect("a good capacity");
            for (key, value) in pairs {
                line.insert(key, value).expect("a good pair");
            }
            line
        };
        let lines: Vec<_> = lists.iter().map(build).collect();
        let text = |line: &plain_line::Line| [line.text().as_bytes(), b"\0"].concat();
        Box::new(move || lines.iter().map(text).collect())
    }

    fn parsed(&self, text: &str) -> Lines {
        let parts = plain_line::Parts::parse(text, CAPACITY).expect("a good text");
        Box::new(move || vec![parts.written().expect("a good line")])
    }

    fn writing(&self, text: &str) -> Writing {
        let parts = plain_line::Parts::parse(text, CAPACITY).expect("a good text");
        Box::new(move || parts.written().expect("a good line"))
    }

    fn putting<'a>(&self, guest: &'a mut [u8], text: &str) -> Putting<'a> {
        let parts = plain_line::Parts::parse(text, CAPACITY).expect("a good text");
        Box::new(move || parts.put(guest).expect("a good line"))
    }
}
