//! Links libesa.a from the folder that `run` names in ESA_ARCHIVE_DIR; takes from the header how long a receiver's state is, and compiles
//! the header's own calls on traces.

use std::path::Path;
use std::process::Command;

const HEADER: &str = "../include/esa.h";
const TRACES: &str = "../compare/traces.c";

fn main() {
    println!("cargo:rerun-if-env-changed=ESA_ARCHIVE_DIR");
    let Ok(folder) = std::env::var("ESA_ARCHIVE_DIR") else {
        panic!("ESA_ARCHIVE_DIR is not set: build through bench/run");
    };
    println!("cargo:rerun-if-changed={HEADER}");
    let header = std::fs::read_to_string(HEADER).expect("the header can be read");
    println!("cargo:rustc-env=ESA_RECEIVING={}", state(&header));
    println!("cargo:rustc-check-cfg=cfg(traces)");
    if header.contains("esa_trace_start(") {
        println!("cargo:rustc-cfg=traces");
        traces();
    }
    println!("cargo:rerun-if-changed={folder}/libesa.a");
    println!("cargo:rustc-link-search=native={folder}");
    println!("cargo:rustc-link-lib=static=esa");
}

/// The digits behind `ESA_RECEIVING =`.
fn state(header: &str) -> String {
    let (_, rest) = header
        .split_once("ESA_RECEIVING = ")
        .expect("ESA_RECEIVING in the header");
    rest.chars().take_while(char::is_ascii_digit).collect()
}

/// A library of the one file, which stands before the proved one that it calls.
fn traces() {
    println!("cargo:rerun-if-changed={TRACES}");
    let folder = std::env::var("OUT_DIR").expect("OUT_DIR is set");
    let at = |name: &str| Path::new(&folder).join(name);
    let mut compiler = Command::new("cc");
    compiler.args([
        "-std=c11",
        "-O2",
        "-fPIC",
        "-I",
        "../include",
        "-c",
        TRACES,
        "-o",
    ]);
    run(compiler.arg(at("traces.o")));
    run(Command::new("ar")
        .arg("rcs")
        .arg(at("libtraces.a"))
        .arg(at("traces.o")));
    println!("cargo:rustc-link-search=native={folder}");
    println!("cargo:rustc-link-lib=static=traces");
}

fn run(command: &mut Command) {
    let status = command
        .status()
        .expect("a C compiler and ar are on the path");
    assert!(status.success(), "{command:?} failed");
}
