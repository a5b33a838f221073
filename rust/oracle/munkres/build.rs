// Finds the sources of the published crate: the folder in SERBIHUN_ORACLE, or ../shared/docs/src beside the project.
use std::{env, path::Path};

fn main() {
    println!("cargo:rerun-if-env-changed=SERBIHUN_ORACLE");
    let project = Path::new(&env::var("CARGO_MANIFEST_DIR").unwrap()).join("../../..").canonicalize().unwrap();
    let given = env::var("SERBIHUN_ORACLE").unwrap_or_else(|_| "../shared/docs/src".to_string());
    let source = project.join(given).join("src/lib.rs");
    let source = source.canonicalize().unwrap_or_else(|_| panic!("oracle: sources not found at {}", source.display()));
    println!("cargo:rustc-env=ORACLE_SOURCE={}", source.display());
    println!("cargo:rerun-if-changed={}", source.parent().unwrap().display());
}
