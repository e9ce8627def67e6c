// Hands the compiler's version to the vector file's header.
use std::env;
use std::process::Command;

fn main() {
    let out = Command::new(env::var("RUSTC").unwrap()).arg("--version").output().unwrap();
    let text = String::from_utf8(out.stdout).unwrap();
    // the name and the number, without the build's mark
    let version: Vec<&str> = text.split_whitespace().take(2).collect();
    println!("cargo:rustc-env=COMPILER={}", version.join(" "));
    println!("cargo:rerun-if-changed=build.rs");
}
