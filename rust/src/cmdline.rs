// Copyright 2018 Amazon.com, Inc. or its affiliates. All Rights Reserved.
// Portions Copyright 2017 The Chromium OS Authors. All rights reserved.
// Use of this source code is governed by a BSD-style license that can be
// found in the NOTICE file.
// SPDX-License-Identifier: Apache-2.0 AND BSD-3-Clause

//! The kernel command line: built word by word, or read from a text, and written with its closing zero.

use std::ffi::CString;
use std::fmt;
use std::result;

use crate::entry::{LIMIT, LINE_SIZE};
use crate::ffi::call;
use crate::refusal::answered;
use crate::{GuestAddress, GuestUsize, Refusal};

/// Why a line refused a text.
#[derive(Clone, Debug, PartialEq, Eq)]
pub enum Error {
    /// Null terminator identified in the command line.
    NullTerminator,
    /// No boot args inserted into cmdline.
    NoBootArgsInserted,
    /// Invalid capacity provided.
    InvalidCapacity,
    /// Operation would have resulted in a non-printable ASCII character.
    InvalidAscii,
    /// Key/Value Operation would have had a space in it.
    HasSpace,
    /// Key/Value Operation would have had an equals sign in it.
    HasEquals,
    /// Key/Value Operation was not passed a value.
    MissingVal(String),
    /// 0-sized virtio MMIO device passed to the kernel command line builder.
    MmioSize,
    /// Operation would have made the command line too large.
    TooLarge,
    /// Double-quotes can be used to protect spaces in values
    NoQuoteSpace,
    /// A double quote that is in the middle of the value
    InvalidQuote,
}

impl fmt::Display for Error {
    fn fmt(&self, f: &mut fmt::Formatter) -> fmt::Result {
        match self {
            Error::NullTerminator => {
                write!(f, "Null terminator detected in the command line structure.")
            }
            Error::NoBootArgsInserted => write!(f, "Cmdline cannot contain only init args."),
            Error::InvalidCapacity => write!(f, "Invalid cmdline capacity provided."),
            Error::InvalidAscii => write!(f, "String contains a non-printable ASCII character."),
            Error::HasSpace => write!(f, "String contains a space."),
            Error::HasEquals => write!(f, "String contains an equals sign."),
            Error::MissingVal(k) => write!(f, "Missing value for key {k}."),
            Error::MmioSize => write!(
                f,
                "0-sized virtio MMIO device passed to the kernel command line builder."
            ),
            Error::TooLarge => write!(f, "Inserting string would make command line too long."),
            Error::NoQuoteSpace => write!(
                f,
                "Value that contains spaces need to be surrounded by quotes"
            ),
            Error::InvalidQuote => write!(f, "Double quote can not be in the middle of the value"),
        }
    }
}

impl std::error::Error for Error {}

impl Error {
    /// The refusal that this error stands for.
    pub fn refusal(&self) -> Refusal {
        match self {
            Error::NullTerminator => Refusal::NullTerminator,
            Error::NoBootArgsInserted => Refusal::NoBootArgsInserted,
            Error::InvalidCapacity => Refusal::InvalidCapacity,
            Error::InvalidAscii => Refusal::InvalidAscii,
            Error::HasSpace => Refusal::HasSpace,
            Error::HasEquals => Refusal::HasEquals,
            Error::MissingVal(_) => Refusal::MissingVal,
            Error::MmioSize => Refusal::MmioSize,
            Error::TooLarge => Refusal::TooLarge,
            Error::NoQuoteSpace => Refusal::NoQuoteSpace,
            Error::InvalidQuote => Refusal::InvalidQuote,
        }
    }

    /// The number of that refusal.
    ///
    /// ```
    /// use rekusoyen::cmdline::{Cmdline, Error};
    ///
    /// let refused = Cmdline::new(7)?.insert("foo", "bar");
    /// assert_eq!(refused, Err(Error::TooLarge));
    /// assert_eq!(Error::TooLarge.number(), 47);
    /// # Ok::<(), Error>(())
    /// ```
    pub fn number(&self) -> u32 {
        self.refusal().number()
    }
}

/// Specialized [`Result`](result::Result) type for command line operations.
pub type Result<T> = result::Result<T, Error>;

/// The result of a call that the library answered with a number. The key is that of a call in which a value may be
/// missing.
fn result_of(number: u32, key: &str) -> Result<()> {
    answered(number).map_err(|refusal| {
        let errors = [
            Error::NullTerminator,
            Error::NoBootArgsInserted,
            Error::InvalidCapacity,
            Error::InvalidAscii,
            Error::HasSpace,
            Error::HasEquals,
            Error::MissingVal(key.to_string()),
            Error::MmioSize,
            Error::TooLarge,
            Error::NoQuoteSpace,
            Error::InvalidQuote,
        ];
        match errors.into_iter().find(|error| error.refusal() == refusal) {
            Some(error) => error,
            None => unreachable!("a line does not answer {refusal:?}"),
        }
    })
}

/// A kernel command line, which tests every text as it is built. A refused call changes nothing.
///
/// ```
/// use rekusoyen::cmdline::Cmdline;
///
/// let mut line = Cmdline::new(100)?;
/// line.insert_str("quiet")?;
/// line.insert("root", "/dev/vda")?;
/// line.insert_init_args("--verbose")?;
/// assert_eq!(line.as_cstring()?.as_bytes(), b"quiet root=/dev/vda -- --verbose");
/// # Ok::<(), rekusoyen::cmdline::Error>(())
/// ```
#[derive(Clone)]
pub struct Cmdline {
    // the bytes that hold the line; only the library writes them
    bytes: Box<[u8; LINE_SIZE]>,
}

impl Cmdline {
    /// An empty line of a capacity from 1 to 16,384, the closing zero counted.
    ///
    /// ```
    /// use rekusoyen::cmdline::{Cmdline, Error};
    ///
    /// assert!(Cmdline::new(100).is_ok());
    /// assert_eq!(Cmdline::new(0), Err(Error::InvalidCapacity));
    /// assert_eq!(Cmdline::new(16385), Err(Error::InvalidCapacity));
    /// ```
    pub fn new(capacity: usize) -> Result<Cmdline> {
        let mut bytes = Box::new([0; LINE_SIZE]);
        let number = call!(rekusoyen_line_new(mut &mut *bytes, capacity as u64));
        result_of(number, "").map(|()| Cmdline { bytes })
    }

    /// A key, an equals sign and a value, after the boot arguments.
    ///
    /// ```
    /// use rekusoyen::cmdline::{Cmdline, Error};
    ///
    /// let mut line = Cmdline::new(100)?;
    /// line.insert("console", "ttyS0")?;
    /// line.insert("motd", "\"good morning\"")?;
    /// assert_eq!(line.insert("motd", "good morning"), Err(Error::NoQuoteSpace));
    /// assert_eq!(line.as_cstring()?.as_bytes(), b"console=ttyS0 motd=\"good morning\"");
    /// # Ok::<(), Error>(())
    /// ```
    pub fn insert<T: AsRef<str>>(&mut self, key: T, val: T) -> Result<()> {
        let (key, val) = (key.as_ref(), val.as_ref());
        let (line, key_text) = (&mut *self.bytes, key.as_bytes());
        let number = call!(rekusoyen_line_insert(mut line, in key_text, in val.as_bytes()));
        result_of(number, key)
    }

    /// A key, an equals sign and values joined by commas, after the boot arguments.
    ///
    /// ```
    /// use rekusoyen::cmdline::{Cmdline, Error};
    ///
    /// let mut line = Cmdline::new(100)?;
    /// line.insert_multiple("earlycon", &["uart", "io", "0x3f8"])?;
    /// assert_eq!(line.insert_multiple("nothing", &[]), Err(Error::MissingVal("nothing".to_string())));
    /// assert_eq!(line.as_cstring()?.as_bytes(), b"earlycon=uart,io,0x3f8");
    /// # Ok::<(), Error>(())
    /// ```
    pub fn insert_multiple<T: AsRef<str>>(&mut self, key: T, vals: &[T]) -> Result<()> {
        let key = key.as_ref();
        // the values one after the other, and where each ends
        let mut values = String::new();
        let mut ends = Vec::with_capacity(vals.len());
        for value in vals {
            values.push_str(value.as_ref());
            ends.push(values.len());
        }
        let number = call!(rekusoyen_line_insert_multiple(
            mut &mut *self.bytes, in key.as_bytes(), in values.as_bytes(), in &ends
        ));
        result_of(number, key)
    }

    /// A text, without the blanks at its ends, after the boot arguments.
    ///
    /// ```
    /// use rekusoyen::cmdline::{Cmdline, Error};
    ///
    /// let mut line = Cmdline::new(8)?;
    /// line.insert_str("  quiet ")?;
    /// assert_eq!(line.insert_str("ro"), Err(Error::TooLarge));
    /// assert_eq!(line.as_cstring()?.as_bytes_with_nul(), b"quiet\0");
    /// # Ok::<(), Error>(())
    /// ```
    pub fn insert_str<T: AsRef<str>>(&mut self, slug: T) -> Result<()> {
        let slug = slug.as_ref().as_bytes();
        let number = call!(rekusoyen_line_insert_str(mut &mut *self.bytes, in slug));
        result_of(number, "")
    }

    /// A text, without the blanks at its ends, after the init arguments.
    ///
    /// ```
    /// use rekusoyen::cmdline::{Cmdline, Error};
    ///
    /// let mut line = Cmdline::new(100)?;
    /// line.insert_init_args("single")?;
    /// assert_eq!(line.as_cstring(), Err(Error::NoBootArgsInserted));
    /// line.insert_str("quiet")?;
    /// assert_eq!(line.as_cstring()?.as_bytes(), b"quiet -- single");
    /// # Ok::<(), Error>(())
    /// ```
    pub fn insert_init_args<T: AsRef<str>>(&mut self, slug: T) -> Result<()> {
        let slug = slug.as_ref().as_bytes();
        let number = call!(rekusoyen_line_insert_init_args(mut &mut *self.bytes, in slug));
        result_of(number, "")
    }

    /// The text of a virtio MMIO device, after the boot arguments: its size on the bus, its address, its interrupt, and its
    /// platform device ID if it has one.
    ///
    /// ```
    /// use rekusoyen::cmdline::{Cmdline, Error};
    /// use rekusoyen::GuestAddress;
    ///
    /// let mut line = Cmdline::new(100)?;
    /// line.add_virtio_mmio_device(1 << 21, GuestAddress(0xd000_0000), 5, None)?;
    /// assert_eq!(line.as_cstring()?.as_bytes(), b"virtio_mmio.device=2M@0xd0000000:5");
    /// assert_eq!(line.add_virtio_mmio_device(0, GuestAddress(0), 5, None), Err(Error::MmioSize));
    /// # Ok::<(), Error>(())
    /// ```
    pub fn add_virtio_mmio_device(
        &mut self,
        size: GuestUsize,
        baseaddr: GuestAddress,
        irq: u32,
        id: Option<u32>,
    ) -> Result<()> {
        let (has_id, id) = (u32::from(id.is_some()), id.unwrap_or(0));
        let number = call!(rekusoyen_line_add_virtio_mmio_device(
            mut &mut *self.bytes, size, baseaddr.0, irq, has_id, id
        ));
        result_of(number, "")
    }

    /// The text of the line, with its closing zero.
    ///
    /// ```
    /// use rekusoyen::cmdline::{Cmdline, Error};
    ///
    /// assert_eq!(Cmdline::new(1)?.as_cstring()?.as_bytes_with_nul(), b"\0");
    /// let zero_inside = Cmdline::try_from("a\0b", 100)?;
    /// assert_eq!(zero_inside.as_cstring(), Err(Error::NullTerminator));
    /// # Ok::<(), Error>(())
    /// ```
    pub fn as_cstring(&self) -> Result<CString> {
        let (boots, inits) = (self.number(0), self.number(1));
        let between = if inits == 0 { 0 } else { 4 };
        // just the bytes that the line takes with its zero: the string keeps them
        let mut out = vec![0; boots + between + inits + 1];
        let mut count = [0];
        let line = self.bytes();
        let number = call!(rekusoyen_raw_line_as_cstring(in line, mut &mut out, mut &mut count));
        result_of(number, "")?;
        out.truncate(count[0] as usize);
        // SAFETY: an accepted call wrote so many bytes, of which the last is zero and no other: a zero in the text is refused. That is proved
        // (crates/cmdline/specs/Writing.antt), and looking for one again would take longer than the call.
        Ok(unsafe { CString::from_vec_with_nul_unchecked(out) })
    }

    /// A line of a capacity from a text: boot arguments, and init arguments behind the first ` -- ` outside of double quotes.
    ///
    /// ```
    /// use rekusoyen::cmdline::{Cmdline, Error};
    ///
    /// let line = Cmdline::try_from("a=\"x -- y\" -- z", 16)?;
    /// assert_eq!(line.as_cstring()?.as_bytes(), b"a=\"x -- y\" -- z");
    /// assert_eq!(Cmdline::try_from("a=\"x -- y\" -- z", 15), Err(Error::InvalidCapacity));
    /// # Ok::<(), Error>(())
    /// ```
    pub fn try_from(cmdline_raw: &str, capacity: usize) -> Result<Cmdline> {
        let mut bytes = Box::new([0; LINE_SIZE]);
        let (line, text) = (&mut *bytes, cmdline_raw.as_bytes());
        let number = call!(rekusoyen_line_try_from(mut line, in text, capacity as u64));
        result_of(number, "").map(|()| Cmdline { bytes })
    }

    /// The boot text and the init text.
    pub(crate) fn texts(&self) -> (&[u8], &[u8]) {
        let text = |at: usize, length: usize| &self.bytes[at..at + length];
        (text(24, self.number(0)), text(24 + LIMIT, self.number(1)))
    }

    /// The bytes that hold the line.
    pub(crate) fn bytes(&self) -> &[u8] {
        &*self.bytes
    }

    /// One of the three numbers that the bytes begin with: the length of the boot text, of the init text, and the capacity.
    fn number(&self, which: usize) -> usize {
        let at = 8 * which;
        let bytes = self.bytes[at..at + 8]
            .try_into()
            .expect("a slice of 8 bytes");
        u64::from_le_bytes(bytes) as usize
    }
}

impl fmt::Debug for Cmdline {
    fn fmt(&self, f: &mut fmt::Formatter) -> fmt::Result {
        let (boots, inits, capacity) = (self.number(0), self.number(1), self.number(2));
        let text = |at: usize, length: usize| String::from_utf8_lossy(&self.bytes[at..at + length]);
        f.debug_struct("Cmdline")
            .field("boot_args", &text(24, boots))
            .field("init_args", &text(24 + LIMIT, inits))
            .field("capacity", &capacity)
            .finish()
    }
}

impl TryFrom<Cmdline> for Vec<u8> {
    type Error = Error;

    fn try_from(cmdline: Cmdline) -> result::Result<Self, Self::Error> {
        cmdline.as_cstring().map(CString::into_bytes_with_nul)
    }
}

/// Lines are equal when what they are written as is, so all lines with init arguments alone are.
impl PartialEq for Cmdline {
    fn eq(&self, other: &Self) -> bool {
        let mut out = [0];
        let (a, b) = (self.bytes(), other.bytes());
        let number = call!(rekusoyen_raw_line_equal(in a, in b, mut &mut out));
        result_of(number, "").is_ok() && out == [1]
    }
}
