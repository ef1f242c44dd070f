//! Links the static library that `processors/build.py` writes: libfichtengarn.a in the folder
//! that FICHTENGARN_LIB_DIR names, or else in the repository's target/staticlib. A relative name
//! counts from the package's folder.

use std::env;
use std::path::Path;

const VARIABLE: &str = "FICHTENGARN_LIB_DIR";

fn main() {
    let here = env::var("CARGO_MANIFEST_DIR").expect("cargo names the package's folder");
    let named = env::var(VARIABLE).unwrap_or_else(|_| "../target/staticlib".to_string());
    let folder = Path::new(&here).join(named);
    println!("cargo:rustc-link-search=native={}", folder.display());
    println!("cargo:rustc-link-lib=static=fichtengarn");
    println!("cargo:rerun-if-changed={}", folder.join("libfichtengarn.a").display());
    println!("cargo:rerun-if-env-changed={VARIABLE}");
}
