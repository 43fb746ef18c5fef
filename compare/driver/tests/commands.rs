//! The command, run as a program.

use std::process::{Command, Output};

fn compare(words: &[&str]) -> Output {
    Command::new(env!("CARGO_BIN_EXE_compare"))
        .args(words)
        .output()
        .expect("the driver can be started")
}

#[test]
fn a_program_that_prints_nothing_differs_on_every_job() {
    let areas = "elf note bzimage line load words page steps arm64 start boot".split(' ');
    let none = areas.flat_map(|area| [format!("--{area}"), "0".into()]);
    let none: Vec<String> = none.collect();
    let mut words = vec!["run", "--desk", "true", "--job", "30"];
    words.extend(["--exhaustive", "0", "--tables", "0"]);
    words.extend(none.iter().map(String::as_str));
    let output = compare(&words);
    let said = String::from_utf8(output.stdout).unwrap();
    assert_eq!(output.status.code(), Some(1));
    assert!(
        said.contains("desk program: 45 jobs, 45 differ\n"),
        "{said}"
    );
    assert!(said.contains("  desk: job \"\"\n"), "{said}");
    assert!(said.ends_with("unexplained: 30\n"), "{said}");
}

#[test]
fn there_must_be_something_to_compare_with() {
    assert_eq!(compare(&["run"]).status.code(), Some(2));
    assert_eq!(compare(&["walk"]).status.code(), Some(2));
}
