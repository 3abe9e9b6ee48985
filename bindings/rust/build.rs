//! Finds the archive of proved functions, and says what to run where there is none.

use std::path::PathBuf;
use std::process::exit;

const ARCHIVE: &str = "libewebasket.a";

fn main() {
    println!("cargo:rerun-if-env-changed=EWEB_ARCHIVE_DIR");
    let folder = match std::env::var_os("EWEB_ARCHIVE_DIR") {
        Some(folder) => PathBuf::from(folder),
        None => {
            let manifest = std::env::var_os("CARGO_MANIFEST_DIR").expect("cargo sets it");
            PathBuf::from(manifest).join("../../target/bindings")
        }
    };
    let archive = folder.join(ARCHIVE);
    println!("cargo:rerun-if-changed={}", archive.display());
    if !archive.is_file() {
        eprintln!("There is no {}.", archive.display());
        eprintln!(
            "Run bindings/archive of Ewebasket's repository, which makes it in target/bindings;"
        );
        eprintln!("or let EWEB_ARCHIVE_DIR be the absolute path of a folder that has {ARCHIVE}.");
        exit(1);
    }
    println!("cargo:rustc-link-search=native={}", folder.display());
    println!("cargo:rustc-link-lib=static=ewebasket");
}
