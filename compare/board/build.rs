//! Links `libboard.a` from the folder that BOARD_LIB names, by default where `compare/board/run`
//! puts it, target/staticlib.

use std::env;
use std::path::PathBuf;
use std::process::exit;

fn main() {
    println!("cargo:rerun-if-env-changed=BOARD_LIB");
    let manifest = PathBuf::from(env::var_os("CARGO_MANIFEST_DIR").expect("cargo sets it"));
    let named = env::var_os("BOARD_LIB").unwrap_or_else(|| "../../target/staticlib".into());
    // A relative folder is one seen from the manifest; an absolute one stays as it is.
    let folder = manifest.join(named);
    let library = folder.join("libboard.a");
    println!("cargo:rerun-if-changed={}", library.display());
    if !library.is_file() {
        eprintln!("no {}: run compare/board/run, or set BOARD_LIB", library.display());
        exit(1);
    }
    println!("cargo:rustc-link-search=native={}", folder.display());
    println!("cargo:rustc-link-lib=static=board");
}
