//! Chooses which library is linked: the text in `assembly/`, which `src/assembly.rs` takes, or, if REKUSOYEN_LIBRARY
//! names a folder, a relative one from where cargo was started, the `librekusoyen.a` in it.

use std::env;
use std::path::Path;
use std::process::exit;

fn main() {
    println!("cargo:rerun-if-changed=build.rs");
    println!("cargo:rerun-if-env-changed=REKUSOYEN_LIBRARY");
    match env::var_os("REKUSOYEN_LIBRARY").filter(|name| !name.is_empty()) {
        Some(name) => {
            // cargo runs this program in the crate's folder, and leaves PWD as it is for the caller
            println!("cargo:rerun-if-env-changed=PWD");
            let folder = Path::new(&env::var_os("PWD").unwrap_or_default()).join(name);
            let library = folder.join("librekusoyen.a");
            if !library.is_file() {
                fail(&format!(
                    "REKUSOYEN_LIBRARY names {}, which has no librekusoyen.a",
                    folder.display()
                ));
            }
            println!("cargo:rerun-if-changed={}", library.display());
            println!("cargo:rustc-cfg=rekusoyen_library");
            println!("cargo:rustc-link-search=native={}", folder.display());
            println!("cargo:rustc-link-lib=static=rekusoyen");
        }
        None => {
            let is = |name, value| env::var(name).as_deref() == Ok(value);
            let served = is("CARGO_CFG_TARGET_OS", "linux")
                && is("CARGO_CFG_TARGET_POINTER_WIDTH", "64")
                && (is("CARGO_CFG_TARGET_ARCH", "x86_64")
                    || is("CARGO_CFG_TARGET_ARCH", "aarch64")
                        && is("CARGO_CFG_TARGET_ENDIAN", "little"));
            if !served {
                fail(&format!(
                    "the target {} is not supported: the library is assembly text for Linux on x86-64 and aarch64",
                    env::var("TARGET").unwrap_or_default()
                ));
            }
        }
    }
}

fn fail(reason: &str) -> ! {
    eprintln!("rekusoyen: {reason}");
    exit(1)
}
