//! Finds libfrayedbin.a, or says in one line how to make it.

use std::env;
use std::path::{Path, PathBuf};
use std::process;

fn main() {
    println!("cargo:rerun-if-changed=build.rs");
    println!("cargo:rerun-if-env-changed=FRAYEDBIN_LIB_DIR");
    println!("cargo:rerun-if-env-changed=FRAYEDBIN_SKIP_LINK");
    // For checks that link no program, such as cargo clippy on another machine.
    if env::var_os("FRAYEDBIN_SKIP_LINK").is_some() {
        println!("cargo:warning=FRAYEDBIN_SKIP_LINK is set: libfrayedbin.a is not linked");
        return;
    }
    if variable("CARGO_CFG_TARGET_ARCH") != "x86_64" || variable("CARGO_CFG_TARGET_OS") != "linux" {
        fail("libfrayedbin.a is for x86-64 Linux only: build for x86_64-unknown-linux-gnu");
    }
    let folder = folder();
    let library = folder.join("libfrayedbin.a");
    println!("cargo:rerun-if-changed={}", library.display());
    if !library.is_file() {
        fail(&format!(
            "no libfrayedbin.a in {}: make it with `rt lib` in the repository's crates/frayedbin, \
             or name its folder in FRAYEDBIN_LIB_DIR",
            folder.display()
        ));
    }
    println!("cargo:rustc-link-search=native={}", folder.display());
    println!("cargo:rustc-link-lib=static=frayedbin");
}

/// The library's folder: the one that is named, or the one that `rt lib` writes to.
fn folder() -> PathBuf {
    let here = variable("CARGO_MANIFEST_DIR");
    match env::var_os("FRAYEDBIN_LIB_DIR") {
        Some(folder) => Path::new(&here).join(folder),
        None => Path::new(&here).join("../crates/frayedbin/out"),
    }
}

fn variable(name: &str) -> String {
    env::var(name).unwrap_or_default()
}

fn fail(line: &str) -> ! {
    eprintln!("{line}");
    process::exit(1);
}
