//! Guest addresses: those of vm-memory where its feature is on, else two types that are written alike.

#[cfg(feature = "vm-memory")]
pub use vm_memory::{GuestAddress, GuestUsize};

/// An address in guest memory.
#[cfg(not(feature = "vm-memory"))]
#[derive(Clone, Copy, Debug, Default, PartialEq, Eq, PartialOrd, Ord)]
pub struct GuestAddress(pub u64);

/// A number of guest bytes.
#[cfg(not(feature = "vm-memory"))]
pub type GuestUsize = u64;
