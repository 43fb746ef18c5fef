//! The proved library, as the assembly text that `tools/make-dist` of the repository writes. The compiler's own
//! assembler takes it: no library file, no C compiler.

#[cfg(feature = "pe")]
compile_error!(
    "the feature `pe` is not carried over from linux-loader: there is no loader for PE images (its module \
     `loader::pe`), only those of the features `elf` and `bzimage`, and `loader::arm64` for arm64 Images, by rules of \
     its own. Take `pe` out of this crate's features."
);

#[cfg(all(not(rekusoyen_library), target_arch = "x86_64"))]
core::arch::global_asm!(
    include_str!("../assembly/x86_64.s"),
    options(att_syntax, raw)
);

#[cfg(all(not(rekusoyen_library), target_arch = "aarch64"))]
core::arch::global_asm!(include_str!("../assembly/aarch64.s"), options(raw));

/// Declares C entry points. In the text the version follows each name, so that two versions of this crate in one
/// program do not call each other's functions; a library that REKUSOYEN_LIBRARY names has the names of the C header.
macro_rules! entry_points {
    ($($(#[$about:meta])* pub fn $name:ident($($argument:ident: $kind:ty),* $(,)?) $(-> $answer:ty)?;)*) => {
        extern "C" {
            $(
                $(#[$about])*
                #[cfg_attr(not(rekusoyen_library), link_name = concat!(
                    stringify!($name),
                    "_", env!("CARGO_PKG_VERSION_MAJOR"),
                    "_", env!("CARGO_PKG_VERSION_MINOR"),
                    "_", env!("CARGO_PKG_VERSION_PATCH"),
                ))]
                pub fn $name($($argument: $kind),*) $(-> $answer)?;
            )*
        }
    };
}

pub(crate) use entry_points;
