//! Builds the C next door with gcc.

use std::path::{Path, PathBuf};
use std::process::Command;
use std::{env, fs};

fn main() {
    let manifest = PathBuf::from(env::var_os("CARGO_MANIFEST_DIR").expect("set by cargo"));
    let out = PathBuf::from(env::var_os("OUT_DIR").expect("set by cargo"));
    let source = manifest.join("../bench/judge.c");
    let object = out.join("judge.o");
    let library = out.join("libc_judge.a");
    // ar adds to an archive that is already there.
    let _ = fs::remove_file(&library);
    run(Command::new("gcc")
        .args([
            "-std=c11", "-O3", "-fPIC", "-Wall", "-Wextra", "-Werror", "-c", "-o",
        ])
        .args([&object, &source]));
    run(Command::new("ar").arg("crs").args([&library, &object]));
    println!("cargo:rustc-link-search=native={}", out.display());
    println!("cargo:rustc-link-lib=static=c_judge");
    let included = ["judge.h", "walk.h"].map(|name| manifest.join("../bench").join(name));
    for file in [source].iter().chain(&included) {
        rerun_if_changed(file);
    }
}

fn rerun_if_changed(file: &Path) {
    println!("cargo:rerun-if-changed={}", file.display());
}

fn run(command: &mut Command) {
    let status = command
        .status()
        .unwrap_or_else(|error| panic!("{command:?}: {error}"));
    assert!(status.success(), "{command:?} failed");
}
