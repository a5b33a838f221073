//! Links libserbihun.a, which `tools/built serbihun` makes. SERBIHUN_LIB names its folder; else it is target/staticlib of the project.
use std::path::PathBuf;

fn main() {
    println!("cargo:rerun-if-env-changed=SERBIHUN_LIB");
    let named = std::env::var_os("SERBIHUN_LIB");
    let target = std::env::var("CARGO_CFG_TARGET_ARCH").unwrap();
    assert!(
        named.is_some() || target == "x86_64",
        "libserbihun.a is for x86-64 Linux; SERBIHUN_LIB may name the folder of another"
    );
    let folder = match named {
        Some(named) => PathBuf::from(named),
        None => PathBuf::from(env!("CARGO_MANIFEST_DIR")).join("../../target/staticlib"),
    };
    println!(
        "cargo:rerun-if-changed={}",
        folder.join("libserbihun.a").display()
    );
    println!("cargo:rustc-link-search=native={}", folder.display());
    println!("cargo:rustc-link-lib=static=serbihun");
}
