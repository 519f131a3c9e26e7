//! Says where the proved library is: target/staticlib of the project, or the folder that
//! the environment variable PLOT_LIB_DIR names. There it is libc_api.a, as
//! `scripts/static_library` makes it, or libplot.a, as it is installed.

use std::env;
use std::path::PathBuf;

const NAMES: [&str; 2] = ["c_api", "plot"];

fn main() {
    let folder = match env::var_os("PLOT_LIB_DIR") {
        Some(folder) => PathBuf::from(folder),
        None => PathBuf::from(env::var_os("CARGO_MANIFEST_DIR").expect("cargo sets it"))
            .join("../../target/staticlib"),
    };
    println!("cargo::rerun-if-env-changed=PLOT_LIB_DIR");
    println!("cargo::rerun-if-changed=build.rs");
    let archive = |name: &str| folder.join(format!("lib{name}.a"));
    for name in NAMES {
        println!("cargo::rerun-if-changed={}", archive(name).display());
    }
    let there = NAMES.iter().find(|name| archive(name).is_file());
    if there.is_none() && !is_clippy() {
        println!(
            "cargo::error=The proved library is missing: {} has neither libc_api.a nor libplot.a. \
             Set PLOT_LIB_DIR to the folder that has it, or make it: `scripts/static_library` in \
             the repository, or `bash install PREFIX`, which puts it into PREFIX/lib.",
            folder.display()
        );
        return;
    }
    println!("cargo::rustc-link-search=native={}", folder.display());
    println!(
        "cargo::rustc-link-lib=static={}",
        there.unwrap_or(&NAMES[0])
    );
}

/// Whether only lints are asked for, which link nothing.
fn is_clippy() -> bool {
    let wrapper = env::var_os("RUSTC_WORKSPACE_WRAPPER");
    wrapper.is_some_and(|wrapper| wrapper.to_string_lossy().contains("clippy"))
}
