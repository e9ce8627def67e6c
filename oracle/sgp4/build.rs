// Finds the crate's source, which is read where it stands and never copied: ../shared/docs/src from the
// repository's root, or what ORBT_SGP4 names from there.
use std::env;
use std::fs;
use std::path::PathBuf;

const MODULES: [&str; 5] = ["deep_space", "gp", "model", "propagator", "third_body"];

fn main() {
    let root = PathBuf::from(env::var("CARGO_MANIFEST_DIR").unwrap()).join("../..");
    let folder = root.join(env::var("ORBT_SGP4").unwrap_or("../shared/docs/src".to_string()));
    let source = folder.join("src").canonicalize().expect("no source of sgp4: ORBT_SGP4 names it");
    let mut text = String::new();
    for name in MODULES {
        let file = source.join(name).with_extension("rs");
        println!("cargo:rerun-if-changed={}", file.display());
        // a module of ours stands where deep_space.rs looks for this one, and hands its calls on
        let name = if name == "third_body" { "third_body_text" } else { name };
        text += &format!("#[path = {:?}]\nmod {name};\n", file.display().to_string());
    }
    println!("cargo:rerun-if-env-changed=ORBT_SGP4");
    fs::write(PathBuf::from(env::var("OUT_DIR").unwrap()).join("modules.rs"), text).unwrap();
}
