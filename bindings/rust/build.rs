//! Tells cargo where the static library is. A build by rustc alone says the same with
//! `-L native=target/staticlib -l static=tdload`, as command/build does.

use std::env;
use std::path::Path;
use std::process::exit;

fn main() {
    let manifest = env::var_os("CARGO_MANIFEST_DIR").expect("cargo sets CARGO_MANIFEST_DIR");
    let folder = Path::new(&manifest).join("../../target/staticlib");
    let library = folder.join("libtdload.a");
    println!("cargo:rerun-if-changed={}", library.display());
    if !library.is_file() {
        // The linker's own message would not say how to make the file.
        eprintln!("{} is missing: run `tools/build` in the repository", library.display());
        exit(1);
    }
    println!("cargo:rustc-link-search=native={}", folder.display());
    println!("cargo:rustc-link-lib=static=tdload");
}
