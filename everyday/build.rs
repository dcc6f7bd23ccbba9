//! Links the archive that ./library writes, which PPE42_LIB names.

use std::env;
use std::path::Path;

fn main() {
    println!("cargo::rerun-if-env-changed=PPE42_LIB");
    let archive = env::var("PPE42_LIB").expect("PPE42_LIB names target/lib/libppe42.a; ./ppe42 sets it");
    println!("cargo::rerun-if-changed={archive}");
    let folder = Path::new(&archive).parent().expect("an archive stands in a folder");
    println!("cargo::rustc-link-search=native={}", folder.display());
    println!("cargo::rustc-link-lib=static=ppe42");
}
