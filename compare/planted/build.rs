//! Copies the second program and puts every mistake of the list into the copy, each behind a switch.
//!
//! The list has for each mistake the file with what goes wrong, the expression that is replaced, and its replacement:
//!
//!     # elf.rs: the magic is compared in three bytes only
//!     - image[..4] != MAGIC
//!     + image[..3] != MAGIC[..3]
//!
//! The expression must stand exactly once in its file. Several mistakes may replace the same one.

use std::collections::BTreeMap;
use std::path::Path;
use std::{env, fs};

struct Mistake {
    file: String,
    what: String,
    old: String,
    new: String,
}

fn main() {
    println!("cargo:rerun-if-changed=mistakes.txt");
    println!("cargo:rerun-if-changed=../second/src");
    let mistakes = mistakes(&fs::read_to_string("mistakes.txt").expect("the list is here"));
    let out = env::var("OUT_DIR").expect("cargo names the folder");
    let out = Path::new(&out);
    for entry in fs::read_dir("../second/src").expect("the second program is here") {
        let path = entry.expect("its folder can be read").path();
        let name = path.file_name().expect("a file has a name");
        let name = name.to_str().expect("names are plain");
        let source = fs::read_to_string(&path).expect("its files can be read");
        let mut edited = edited(name, &source, &mistakes);
        if name == "lib.rs" {
            // an included file can have no documentation of its own, but this one names the mistakes
            edited = edited
                .lines()
                .filter(|line| !line.starts_with("//!"))
                .collect::<Vec<_>>()
                .join("\n");
            edited += &names(&mistakes);
        }
        fs::write(out.join(name), edited).expect("cargo's folder can be written");
    }
}

fn mistakes(list: &str) -> Vec<Mistake> {
    let mut mistakes: Vec<Mistake> = Vec::new();
    for line in list.lines().filter(|line| !line.is_empty()) {
        let (mark, text) = line.split_at(2);
        match mark {
            "# " => {
                let (file, what) = text.split_once(": ").expect("a file, and what goes wrong");
                mistakes.push(Mistake {
                    file: file.into(),
                    what: what.into(),
                    old: String::new(),
                    new: String::new(),
                });
            }
            "- " => mistakes.last_mut().expect("a mistake has begun").old = text.into(),
            "+ " => mistakes.last_mut().expect("a mistake has begun").new = text.into(),
            _ => panic!("mistakes.txt: a line begins with none of the three marks: {line}"),
        }
    }
    mistakes
}

fn edited(name: &str, source: &str, mistakes: &[Mistake]) -> String {
    let mut by_place: BTreeMap<usize, Vec<usize>> = BTreeMap::new();
    // tests stay behind: what they contain is not part of the program
    let program = source.split("#[cfg(test)]").next().unwrap_or(source);
    for (index, mistake) in mistakes.iter().enumerate().filter(|(_, m)| m.file == name) {
        let old = &mistake.old;
        let found: Vec<_> = program.match_indices(old.as_str()).collect();
        assert_eq!(found.len(), 1, "{name} must have exactly once: {old}");
        by_place.entry(found[0].0).or_default().push(index);
    }
    let mut edited = String::new();
    let mut copied = 0;
    for (place, indices) in by_place {
        let old = &mistakes[indices[0]].old;
        assert!(place >= copied, "{name}: edits overlap at: {old}");
        edited += &program[copied..place];
        edited += "(";
        for index in indices {
            let mistake = &mistakes[index];
            assert_eq!(&mistake.old, old, "{name}: edits overlap");
            edited += &format!("if crate::is_on({index}) {{ {} }} else ", mistake.new);
        }
        edited += &format!("{{ {old} }})");
        copied = place + old.len();
    }
    edited + &program[copied..]
}

fn names(mistakes: &[Mistake]) -> String {
    let entry = |mistake: &Mistake| format!("({:?}, {:?}),", mistake.file, mistake.what);
    let entries: String = mistakes.iter().map(entry).collect();
    format!("\n/// Each mistake: its file, and what goes wrong.\npub const MISTAKES: &[(&str, &str)] = &[{entries}];\n")
}
