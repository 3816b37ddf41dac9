//! Links the proved library. MTA_LIB names the folder of libmta.a; it is
//! crates/mta/out where it is not set.

use std::path::PathBuf;

fn main() {
    let here = PathBuf::from(std::env::var("CARGO_MANIFEST_DIR").unwrap());
    let proved = std::env::var_os("MTA_LIB").map_or(here.join("../../crates/mta/out"), PathBuf::from);
    println!("cargo:rustc-link-search=native={}", proved.display());
    println!("cargo:rustc-link-lib=static=mta");
    println!("cargo:rerun-if-changed={}", proved.join("libmta.a").display());
    println!("cargo:rerun-if-env-changed=MTA_LIB");
}
