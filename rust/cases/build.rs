// Links the library, libserbihun.a, from the folder in SERBIHUN_LIB or from target/staticlib of the project.
use std::{env, path::Path};

fn main() {
    println!("cargo:rustc-check-cfg=cfg(library)");
    println!("cargo:rerun-if-env-changed=SERBIHUN_LIB");
    let project = Path::new(&env::var("CARGO_MANIFEST_DIR").unwrap()).join("../..").canonicalize().unwrap();
    let folder = project.join(env::var("SERBIHUN_LIB").unwrap_or_else(|_| "target/staticlib".to_string()));
    println!("cargo:rerun-if-changed={}", folder.join("libserbihun.a").display());
    // the kit's library is for x86-64; one that is named is for this machine
    let links = env::var("CARGO_CFG_TARGET_ARCH").unwrap() == "x86_64" || env::var("SERBIHUN_LIB").is_ok();
    if links && folder.join("libserbihun.a").exists() {
        println!("cargo:rustc-cfg=library");
        println!("cargo:rustc-link-search=native={}", folder.display());
        println!("cargo:rustc-link-lib=static=serbihun");
    }
}
