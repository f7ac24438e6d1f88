// Names the Rust source as a module where it lies: LOST_SEGMENTS is the path of lost_segments.rs.
use std::{env, fs, path::Path};

fn main() {
    println!("cargo:rerun-if-env-changed=LOST_SEGMENTS");
    let path = env::var("LOST_SEGMENTS").expect("LOST_SEGMENTS must name lost_segments.rs");
    let path = fs::canonicalize(&path).expect("LOST_SEGMENTS must name lost_segments.rs");
    println!("cargo:rerun-if-changed={}", path.display());
    let text = format!("#[path = {:?}]\npub mod lost_segments;\n", path);
    fs::write(Path::new(&env::var("OUT_DIR").unwrap()).join("module.rs"), text).unwrap();
}
