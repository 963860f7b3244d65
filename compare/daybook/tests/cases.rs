//! The stored cases and lists: each input gives its output, to the byte, and the list names each of them once.

use daybook::Registre;
use std::fs;
use std::path::{Path, PathBuf};

fn data() -> PathBuf {
    Path::new(env!("CARGO_MANIFEST_DIR")).join("../../crates/vectors/data")
}

/// The names of the inputs of a folder, as the list has them.
fn names(folder: &str) -> Vec<String> {
    let mut names = Vec::new();
    for entry in fs::read_dir(data().join(folder)).expect("the folder is there") {
        let file = entry.expect("an entry").file_name().into_string().expect("a plain name");
        if let Some(name) = file.strip_suffix(".in") {
            names.push(format!("{folder}/{name}"));
        }
    }
    names.sort();
    names
}

fn folder_agrees(folder: &str, at_least: usize) {
    let names = names(folder);
    for name in &names {
        let mut written = Vec::new();
        let lines = fs::read(data().join(format!("{name}.in"))).expect("an input");
        Registre::default().run(&mut &lines[..], &mut written).expect("memory takes all");
        let expected = fs::read(data().join(format!("{name}.out"))).expect("its output");
        assert!(written == expected, "{name} differs");
    }
    assert!(names.len() >= at_least, "only {} cases in {folder}", names.len());
}

#[test]
fn worked_cases() {
    folder_agrees("cases", 70);
}

#[test]
fn dated_examples() {
    folder_agrees("dated", 12);
}

#[test]
fn sample() {
    folder_agrees("sample", 60);
}

#[test]
fn the_list_names_each_once() {
    let list = fs::read_to_string(data().join("list.txt")).expect("the list");
    let stored: Vec<String> = ["cases", "dated", "sample"].iter().flat_map(|folder| names(folder)).collect();
    assert_eq!(list.lines().collect::<Vec<_>>(), stored);
}
