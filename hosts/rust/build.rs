//! Finds `libgrain.a`: in the folder that GRAIN_LIB_DIR names, else inside the package, else next to it.
use std::env;
use std::path::{Path, PathBuf};
use std::process::exit;

/// Where it lies: inside the package, in a release next to it, and in the repository.
const PLACES: [&str; 3] = ["lib", "../lib", "../out"];

fn fail(sentence: &str) -> ! {
    eprintln!("{sentence}");
    exit(1)
}

fn variable(name: &str) -> String {
    env::var(name).unwrap_or_default()
}

fn check_target() {
    let (os, arch) = (
        variable("CARGO_CFG_TARGET_OS"),
        variable("CARGO_CFG_TARGET_ARCH"),
    );
    if (&*os, &*arch) != ("linux", "x86_64") {
        fail(&format!("grain is for x86_64 Linux, not for {arch} {os}"));
    }
}

fn has_library(folder: &Path) -> bool {
    folder.join("libgrain.a").is_file()
}

fn folder() -> PathBuf {
    if let Some(named) = env::var_os("GRAIN_LIB_DIR") {
        let named = PathBuf::from(named);
        if !has_library(&named) {
            fail(&format!(
                "GRAIN_LIB_DIR names {}, where no libgrain.a is",
                named.display()
            ));
        }
        return named;
    }
    let own = variable("CARGO_MANIFEST_DIR");
    let places = PLACES.map(|place| Path::new(&own).join(place));
    match places.iter().find(|folder| has_library(folder)) {
        Some(found) => found.clone(),
        None => fail(&format!(
            "no libgrain.a is in {}/lib: set GRAIN_LIB_DIR to the folder that has it",
            own
        )),
    }
}

fn main() {
    println!("cargo:rerun-if-env-changed=GRAIN_LIB_DIR");
    println!("cargo:rerun-if-env-changed=DOCS_RS");
    if env::var_os("DOCS_RS").is_some() {
        return;
    }
    check_target();
    let folder = folder();
    println!(
        "cargo:rerun-if-changed={}",
        folder.join("libgrain.a").display()
    );
    println!("cargo:rustc-link-search=native={}", folder.display());
    println!("cargo:rustc-link-lib=static=grain");
    // Functions of scripts on floats are those of the C library's mathematics.
    println!("cargo:rustc-link-lib=m");
}
