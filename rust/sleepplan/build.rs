//! Links the planner's static library, which `tools/build planner_c` writes to crates/planner_c/out. The
//! variable SLEEPPLAN_LIB names another folder.

use std::path::PathBuf;

const LIBRARY: &str = "libplanner_c.a";

fn main() {
    println!("cargo:rerun-if-env-changed=SLEEPPLAN_LIB");
    let folder = match std::env::var_os("SLEEPPLAN_LIB") {
        Some(folder) => PathBuf::from(folder),
        None => PathBuf::from(env!("CARGO_MANIFEST_DIR")).join("../../crates/planner_c/out"),
    };
    let library = folder.join(LIBRARY);
    println!("cargo:rerun-if-changed={}", library.display());
    if !library.is_file() {
        eprintln!("{} is missing: run tools/build planner_c in the repository, or rust/run", library.display());
        std::process::exit(1);
    }
    println!("cargo:rustc-link-search=native={}", folder.display());
    println!("cargo:rustc-link-lib=static=planner_c");
}
