//! Links libesa.a: from the folder that ESA_ARCHIVE_DIR names, or else where `tools/archive` leaves it.

use std::path::PathBuf;

fn main() {
    println!("cargo:rerun-if-env-changed=ESA_ARCHIVE_DIR");
    let set = |name| std::env::var_os(name).expect("cargo sets it");
    let folder = match std::env::var_os("ESA_ARCHIVE_DIR") {
        Some(folder) => PathBuf::from(folder),
        None => PathBuf::from(set("CARGO_MANIFEST_DIR")).join("../../target/archive"),
    };
    assert!(
        folder.is_absolute(),
        "ESA_ARCHIVE_DIR is '{}': name the whole path of that folder, from / on, as 'tools/archive' prints it",
        folder.display()
    );
    let archive = folder.join("libesa.a");
    println!("cargo:rerun-if-changed={}", archive.display());
    assert!(
        archive.is_file(),
        "there is no {}: run 'tools/archive' in the repository; where it stands elsewhere, name its folder in ESA_ARCHIVE_DIR",
        archive.display()
    );
    println!("cargo:rustc-link-search=native={}", folder.display());
    println!("cargo:rustc-link-lib=static=esa");
}
