// Links liborbt.a, which `oracle/library` writes to target/staticlib. ORBT_LIB names another folder
// that has it, from the repository's root.
use std::env;
use std::path::PathBuf;

fn main() {
    let root = PathBuf::from(env::var("CARGO_MANIFEST_DIR").unwrap()).join("../..");
    let folder = root.join(env::var("ORBT_LIB").unwrap_or("target/staticlib".to_string()));
    let folder = folder.canonicalize().expect("no folder of liborbt.a: oracle/library writes it");
    println!("cargo:rerun-if-env-changed=ORBT_LIB");
    println!("cargo:rerun-if-changed={}", folder.join("liborbt.a").display());
    println!("cargo:rustc-link-search=native={}", folder.display());
    println!("cargo:rustc-link-lib=static=orbt");
}
