//! Links the archive that `tools/archive` writes, from PUSMARKE_LIB_DIR or from the project's target folder.
use std::{env, path::PathBuf};

fn main() {
    let here = PathBuf::from(env::var_os("CARGO_MANIFEST_DIR").unwrap_or_default());
    let dir = env::var_os("PUSMARKE_LIB_DIR").map_or_else(|| here.join("../../target/staticlib"), PathBuf::from);
    println!("cargo:rustc-link-search=native={}", dir.display());
    println!("cargo:rustc-link-lib=static=pusmarke_c");
    println!("cargo:rerun-if-changed={}", dir.join("libpusmarke_c.a").display());
    println!("cargo:rerun-if-env-changed=PUSMARKE_LIB_DIR");
}
