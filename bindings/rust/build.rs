//! Finds libpine_c.a: in the folder that PINE_LIB_DIR names, an absolute path; without one in build/ of the repository,
//! where `make lib` writes it, or else in crates/pine_c/out/, where the prover does.
use std::env;
use std::path::PathBuf;

fn main() {
    println!("cargo:rerun-if-env-changed=PINE_LIB_DIR");
    if env::var("CARGO_CFG_TARGET_ARCH").as_deref() != Ok("x86_64") {
        stop("libpine_c.a is code for x86-64 only");
    }
    let folders = folders();
    for folder in &folders {
        let archive = folder.join("libpine_c.a");
        println!("cargo:rerun-if-changed={}", archive.display());
        if archive.is_file() {
            println!("cargo:rustc-link-search=native={}", folder.display());
            println!("cargo:rustc-link-lib=static=pine_c");
            return;
        }
    }
    let looked: Vec<String> = folders.iter().map(|f| f.display().to_string()).collect();
    stop(&format!(
        "libpine_c.a is not in {}: run 'make lib' at the repository's root, or set PINE_LIB_DIR to the folder that \
         has it",
        looked.join(" nor in ")
    ));
}

fn folders() -> Vec<PathBuf> {
    if let Some(named) = env::var_os("PINE_LIB_DIR").filter(|named| !named.is_empty()) {
        let folder = PathBuf::from(named);
        // this script runs in another folder than the one that the caller is in
        if folder.is_relative() {
            stop(&format!(
                "PINE_LIB_DIR={} is not absolute",
                folder.display()
            ));
        }
        return vec![folder];
    }
    let here = PathBuf::from(env::var_os("CARGO_MANIFEST_DIR").expect("cargo sets it"));
    let root = here.join("../..").canonicalize().unwrap_or(here);
    vec![root.join("build"), root.join("crates/pine_c/out")]
}

fn stop(why: &str) -> ! {
    eprintln!("jihmeto-pine: {why}");
    std::process::exit(1);
}
