//! Chooses the library under test: the archive that PPE42_LIB names, or the second implementation where it names none.

use std::env;
use std::path::Path;

fn main() {
    println!("cargo::rerun-if-env-changed=PPE42_LIB");
    println!("cargo::rustc-check-cfg=cfg(archive)");
    if let Ok(archive) = env::var("PPE42_LIB") {
        link(Path::new(&archive));
        println!("cargo::rerun-if-changed={archive}");
        println!("cargo::rustc-cfg=archive");
    }
}

fn link(archive: &Path) {
    let archive = archive.canonicalize().expect("PPE42_LIB names an archive");
    let folder = archive.parent().expect("an archive stands in a folder");
    let stem = archive.file_stem().and_then(|stem| stem.to_str()).expect("a plain file name");
    let name = stem.strip_prefix("lib").expect("an archive is called lib*.a");
    println!("cargo::rustc-link-search=native={}", folder.display());
    println!("cargo::rustc-link-lib=static={name}");
}
