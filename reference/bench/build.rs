//! Builds plain.c with gcc -O3, as it is and without the vectoriser, SM3's constants
//! rotated in the round and in a table, and links all four. The proved library comes with
//! the crate `link`. MTA_BEFORE names the folder of an earlier libmta.a: what it is timed
//! by is linked too, under other names.

use std::path::PathBuf;
use std::process::Command;

/// The entries of the earlier library that are timed.
const BEFORE: [&str; 6] = ["inclusion", "consistency", "digest", "leaf", "node", "step"];

fn main() {
    let here = PathBuf::from(std::env::var("CARGO_MANIFEST_DIR").unwrap());
    let out = PathBuf::from(std::env::var("OUT_DIR").unwrap());
    let library = out.join("libplain.a");
    let _ = std::fs::remove_file(&library);
    let (scalar, table) = ("-fno-tree-vectorize", "-DTABLE");
    for (prefix, more) in [("plain", &[][..]), ("scalar", &[scalar]), ("table", &[table]), ("scalar_table", &[scalar, table])] {
        let object = out.join(format!("{prefix}.o"));
        let mut gcc = Command::new("gcc");
        gcc.args(["-std=c11", "-Wall", "-Wextra", "-O3", "-fPIC"]).arg(format!("-DPLAIN(name)={prefix}_##name")).args(more).args(["-c", "-o"]);
        run(gcc.arg(&object).arg(here.join("plain.c")));
        run(Command::new("ar").arg("rcs").arg(&library).arg(&object));
    }
    println!("cargo:rustc-link-search=native={}", out.display());
    println!("cargo:rustc-link-lib=static=plain");
    println!("cargo:rerun-if-changed=plain.c");

    println!("cargo:rustc-check-cfg=cfg(before)");
    println!("cargo:rerun-if-env-changed=MTA_BEFORE");
    if let Some(folder) = std::env::var_os("MTA_BEFORE") {
        let earlier = PathBuf::from(folder).join("libmta.a");
        let mut rename = Command::new("objcopy");
        for entry in BEFORE {
            rename.arg(format!("--redefine-sym=mta_{entry}=before_{entry}")).arg(format!("--keep-global-symbol=before_{entry}"));
        }
        run(rename.arg(&earlier).arg(out.join("libbefore.a")));
        println!("cargo:rustc-link-lib=static=before");
        println!("cargo:rustc-cfg=before");
        println!("cargo:rerun-if-changed={}", earlier.display());
    }
}

fn run(command: &mut Command) {
    let status = command.status().unwrap_or_else(|error| panic!("{command:?}: {error}"));
    assert!(status.success(), "{command:?} failed");
}
