//! Links the board's static library, which `tools/build board_c` writes to crates/board_c/out. The
//! variable SLEEPBOARD_LIB names another folder.

use std::path::PathBuf;

const LIBRARY: &str = "libboard_c.a";

fn main() {
    println!("cargo:rerun-if-env-changed=SLEEPBOARD_LIB");
    let folder = match std::env::var_os("SLEEPBOARD_LIB") {
        Some(folder) => PathBuf::from(folder),
        None => PathBuf::from(env!("CARGO_MANIFEST_DIR")).join("../../crates/board_c/out"),
    };
    let library = folder.join(LIBRARY);
    println!("cargo:rerun-if-changed={}", library.display());
    if !library.is_file() {
        eprintln!("{} is missing: run tools/build board_c in the repository, or rust/check", library.display());
        std::process::exit(1);
    }
    println!("cargo:rustc-link-search=native={}", folder.display());
    println!("cargo:rustc-link-lib=static=board_c");
}
