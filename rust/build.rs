//! Links the static archive libgekunday.a from the folder GEKUNDAY_LIB_DIR, by default ../target/staticlib.

use std::path::PathBuf;
use std::process::exit;

fn main() {
    println!("cargo:rerun-if-env-changed=GEKUNDAY_LIB_DIR");
    let folder = match std::env::var_os("GEKUNDAY_LIB_DIR") {
        Some(named) => PathBuf::from(named),
        None => match std::env::var_os("CARGO_MANIFEST_DIR") {
            Some(package) => PathBuf::from(package).join("../target/staticlib"),
            None => {
                eprintln!("gekunday: set GEKUNDAY_LIB_DIR to the folder of libgekunday.a");
                exit(1)
            }
        },
    };
    let archive = folder.join("libgekunday.a");
    println!("cargo:rerun-if-changed={}", archive.display());
    if !archive.is_file() {
        eprintln!(
            "gekunday: no {}; run `bash tools/build archive` in the repository, or set GEKUNDAY_LIB_DIR",
            archive.display()
        );
        exit(1);
    }
    println!("cargo:rustc-link-search=native={}", folder.display());
    println!("cargo:rustc-link-lib=static=gekunday");
}
