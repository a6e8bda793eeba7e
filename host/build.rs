//! Says where the proved library is. `rt lib` in `crates/rulebook` makes it.

use std::env;
use std::path::Path;
use std::process::exit;

fn main() {
    let host = env::var("CARGO_MANIFEST_DIR").expect("cargo sets CARGO_MANIFEST_DIR");
    let folder = Path::new(&host).join("../crates/rulebook/out");
    let library = folder.join("librulebook.a");
    println!("cargo:rerun-if-changed={}", library.display());
    if !library.exists() {
        eprintln!(
            "{} is missing: run 'rt lib' in crates/rulebook",
            library.display()
        );
        exit(1);
    }
    println!("cargo:rustc-link-search=native={}", folder.display());
    println!("cargo:rustc-link-lib=static=rulebook");
}
