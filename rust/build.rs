//! Links the static library that `rt lib` writes in crates/export. It is for x86-64 alone: for another
//! processor it is linked into a program of its own, `serve`, which an emulator runs.
//! On x86-64 that program is built too, so that its tests run on each processor. What is run later
//! is made here and named by its whole path: on x86-64 `serve` itself, elsewhere a script that runs
//! it under the emulator.

use std::path::{Path, PathBuf};
use std::process::Command;

/// Says what is missing and what to do, and ends the build.
fn give_up(sentence: &str) -> ! {
    eprintln!("ebbcandle: {sentence}");
    std::process::exit(1)
}

fn folder(name: &str) -> PathBuf {
    PathBuf::from(std::env::var(name).unwrap_or_else(|_| panic!("cargo sets {name}")))
}

/// A library that is there, and after a change of which the package is built again.
fn built(library: &Path, command: &str) {
    println!("cargo:rerun-if-changed={}", library.display());
    if !library.is_file() {
        give_up(&format!(
            "the library {} is not built; `{command}` in the repository's folder builds it",
            library.display()
        ));
    }
}

/// Links the library in this folder.
fn link(folder: &Path) {
    println!("cargo:rustc-cfg=direct");
    println!("cargo:rustc-link-search=native={}", folder.display());
}

/// The whole path of bash: entries of PATH that don't begin with / name nothing.
fn bash() -> PathBuf {
    let path = std::env::var_os("PATH").unwrap_or_default();
    let found = std::env::split_paths(&path)
        .filter(|folder| folder.is_absolute())
        .map(|folder| folder.join("bash"))
        .find(|file| file.is_file());
    found.unwrap_or_else(|| give_up("the command bash is missing; put its folder into PATH"))
}

/// tools/x86-64, to be given its words.
fn tool(here: &Path) -> Command {
    let mut command = Command::new(bash());
    command.arg(here.join("../tools/x86-64"));
    command
}

/// Runs the tool, which says itself what is missing.
fn done(tool: &mut Command) {
    if !tool.status().is_ok_and(|status| status.success()) {
        give_up("tools/x86-64 did not make the library's process; what it said stands above");
    }
}

/// Builds the program that has the library, and gives the path of what runs it.
fn serve(here: &Path, library: &Path, linked: bool) -> PathBuf {
    let (source, out) = (here.join("serve/serve.c"), folder("OUT_DIR"));
    let (serve, script) = (out.join("serve"), out.join("serve.sh"));
    for file in ["serve/serve.c", "../crates/export/ebbcandle.h", "../tools"] {
        println!("cargo:rerun-if-changed={file}");
    }
    let flags = ["-std=c11", "-Wall", "-Wextra", "-Werror", "-O2"];
    let files: [&Path; 4] = [&source, library, "-o".as_ref(), &serve];
    done(tool(here).arg("cc").args(flags).args(files));
    if linked {
        return serve;
    }
    done(tool(here).arg("script").args([&serve, &script]));
    script
}

fn main() {
    let here = folder("CARGO_MANIFEST_DIR");
    println!("cargo:rerun-if-env-changed=EBBCANDLE_NATIVE");
    println!("cargo:rustc-check-cfg=cfg(direct, piped)");
    // for the benchmark: a folder with the library compiled for this processor, by tools/native
    if let Ok(native) = std::env::var("EBBCANDLE_NATIVE") {
        let native = Path::new(&native);
        built(&native.join("libexport.a"), "bash tools/native FOLDER");
        link(native);
        return;
    }
    let library = here.join("../crates/export/out/libexport.a");
    let linked = std::env::var("CARGO_CFG_TARGET_ARCH").as_deref() == Ok("x86_64");
    built(&library, "cd crates/export && rt lib");
    let serve = serve(&here, &library, linked);
    assert!(serve.is_absolute(), "cargo's OUT_DIR is a whole path");
    println!("cargo:rustc-cfg=piped");
    println!("cargo:rustc-env=EBBCANDLE_SERVE={}", serve.display());
    if linked {
        link(library.parent().expect("a folder"));
    }
}
