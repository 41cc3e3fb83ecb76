//! Links the proved library, which `make lib` leaves in `target/lib`; SEATBOARD_LIB names another
//! folder.

use std::env;
use std::path::{Path, PathBuf};

fn main() {
    let folder = env::var_os("SEATBOARD_LIB").map_or_else(default_folder, PathBuf::from);
    let archive = folder.join("libseatboard.a");
    if !archive.is_file() {
        panic!(
            "{} is not there: run `make lib` in the repository, or set SEATBOARD_LIB",
            archive.display()
        );
    }
    println!("cargo:rerun-if-env-changed=SEATBOARD_LIB");
    println!("cargo:rerun-if-changed={}", archive.display());
    println!("cargo:rustc-link-search=native={}", folder.display());
    println!("cargo:rustc-link-lib=static=seatboard");
}

fn default_folder() -> PathBuf {
    let package = env::var_os("CARGO_MANIFEST_DIR").expect("cargo sets CARGO_MANIFEST_DIR");
    Path::new(&package).join("../../target/lib")
}
