//! The sample tables of the repository, and what their texts say of them.
#![allow(dead_code)]

use std::fs;
use std::path::{Path, PathBuf};

/// A file of the repository.
pub fn path(name: &str) -> PathBuf {
    Path::new(env!("CARGO_MANIFEST_DIR")).join("../..").join(name)
}

/// A file of the repository as text.
pub fn words(name: &str) -> String {
    fs::read_to_string(path(name)).unwrap_or_else(|error| panic!("{name}: {error}"))
}

/// A sample table.
pub fn table(name: &str) -> Vec<u8> {
    fs::read(path(&format!("tables/{name}.esa"))).unwrap_or_else(|error| panic!("{name}: {error}"))
}

/// The names of the sample tables.
pub fn names() -> Vec<String> {
    let files = fs::read_dir(path("tables")).expect("the folder of the samples");
    let paths = files.map(|file| file.expect("a file").path());
    let mut names: Vec<String> = paths
        .filter(|path| path.extension().is_some_and(|end| end == "esa"))
        .map(|path| path.file_stem().unwrap().to_string_lossy().into_owned())
        .collect();
    names.sort();
    assert!(names.len() >= 14, "only {} sample tables", names.len());
    names
}

/// The sample tables that are accepted by the ordinary rules on the larger chip, and no others.
pub fn accepted() -> Vec<(String, Vec<u8>)> {
    let all = names().into_iter().map(|name| (name.clone(), table(&name)));
    let good: Vec<_> = all.filter(|(name, _)| told(name, &format!("./esa check tables/{name}.esa")).contains(": ok, ")).collect();
    assert!(good.len() >= 8, "only {} are accepted", good.len());
    good
}

/// What the text beside a sample table has under this command; empty where it has not that command.
pub fn told(name: &str, command: &str) -> String {
    let text = words(&format!("tables/{name}.txt"));
    let mut lines = text.lines().skip_while(|line| *line != format!("$ {command}")).skip(1);
    let mut told = String::new();
    for line in lines.by_ref().take_while(|line| !line.is_empty()) {
        told.push_str(line);
        told.push('\n');
    }
    told
}
