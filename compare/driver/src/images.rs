//! Real images: files that are loaded by everyone and compared.

use crate::backend::{Maker, Reply};
use crate::over_second;
use crate::question::{Load, Options, Question};
use crate::report::line_of;
use crate::rng::Rng;
use std::io::Result;
use std::path::Path;

/// How much guest memory there is: enough for a kernel at its own address.
const GUEST: usize = 128 << 20;

/// A base of an arm64 Image, 2 MiB, beside 0.
const ARM64_BASE: u64 = 2 << 20;

/// Loads each file as what it is; answers whether all agreed.
pub fn images(files: &[String], backends: &[&Maker]) -> Result<bool> {
    let mut asked: Vec<_> = backends.iter().map(|make| make()).collect();
    let mut all_agree = true;
    for file in files {
        let image = std::fs::read(file)?;
        let name = Path::new(file).file_name().unwrap_or_default();
        println!("{}", name.to_string_lossy());
        for question in questions(&image) {
            let told = over_second::answer(&question).line(question.guest());
            println!("  second: {told}");
            for backend in &mut asked {
                let wanted = over_second::answer_by(&question, backend.rules());
                let reply = backend.ask(&question);
                let agrees = backend.agrees(&question, &wanted, &reply);
                all_agree &= agrees;
                let words = match reply {
                    Reply::Outside => "not asked".into(),
                    _ if agrees => "the same".into(),
                    _ => format!("DIFFERENT: {}", line_of(&question, &reply)),
                };
                println!("  {}: {words}", backend.name());
            }
        }
    }
    Ok(all_agree)
}

/// The loads of an image, as an ELF or arm64 one if it has that magic number and else as a bzImage: at its own
/// address, an arm64 one at two bases.
fn questions(image: &[u8]) -> Vec<Question> {
    let load = |offset| Load {
        options: Options {
            offset,
            highmem: None,
        },
        map: None,
        image: image.to_vec(),
        guest: Rng::new(1).bytes(GUEST),
    };
    if image.starts_with(b"\x7fELF") {
        return vec![Question::Elf(load(None))];
    }
    if image.get(56..60) == Some(b"ARM\x64") {
        let bases = [None, Some(ARM64_BASE)];
        return bases.map(|base| Question::Arm64(load(base))).to_vec();
    }
    vec![Question::Bzimage(load(None))]
}
