// Links the proved static library, which `rt lib` in crates/exports writes to its folder out.

use std::env;
use std::path::PathBuf;

fn main() {
    println!("cargo:rerun-if-env-changed=RALWINGA_LIBRARY");
    let folder = match env::var("RALWINGA_LIBRARY") {
        Ok(given) => PathBuf::from(given),
        Err(_) => PathBuf::from(env::var("CARGO_MANIFEST_DIR").expect("set by cargo"))
            .join("../crates/exports/out"),
    };
    let archive = folder.join("libexports.a");
    println!("cargo:rerun-if-changed={}", archive.display());
    if !archive.exists() {
        eprintln!(
            "{} is missing: run `rt lib` in the folder crates/exports first",
            archive.display()
        );
        std::process::exit(1);
    }
    println!("cargo:rustc-link-search=native={}", folder.display());
    println!("cargo:rustc-link-lib=static=exports");
}
