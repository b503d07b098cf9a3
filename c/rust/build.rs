//! Finds the archive librme.a that this crate links: in the folder that RME_LIB_DIR names, else made by the Makefile beside
//! the crate, else where pkg-config says that it is installed.

use std::env;
use std::path::{Path, PathBuf};
use std::process::{Command, Stdio};

fn main() {
    let folder = named().or_else(made).or_else(installed).unwrap_or_else(|| {
        panic!("no librme.a: set RME_LIB_DIR to the folder that has it, or install it where pkg-config finds rme")
    });
    println!("cargo:rustc-link-search=native={}", folder.display());
    println!("cargo:rustc-link-lib=static=rme");
}

fn named() -> Option<PathBuf> {
    println!("cargo:rerun-if-env-changed=RME_LIB_DIR");
    env::var_os("RME_LIB_DIR").map(PathBuf::from)
}

/// Has the Makefile of the folder above make the archive, as `make` does for C.
fn made() -> Option<PathBuf> {
    let sources = Path::new(&env::var_os("CARGO_MANIFEST_DIR")?).parent()?.to_path_buf();
    if !sources.join("Makefile").exists() || !sources.join("src/rme.c").exists() {
        return None;
    }
    for name in ["Makefile", "include", "src", "librme_machine.a", "../crates/rme_c/out/librme_c.a"] {
        let path = sources.join(name);
        if path.exists() {
            println!("cargo:rerun-if-changed={}", path.display());
        }
    }
    for name in ["MACHINE", "HEAP", "CC"] {
        println!("cargo:rerun-if-env-changed={name}");
    }
    let out = PathBuf::from(env::var_os("OUT_DIR")?);
    let made = Command::new("make")
        .arg("-C")
        .arg(&sources)
        .arg(format!("OUT={}", out.display()))
        .arg(out.join("librme.a"))
        .stdout(Stdio::null())
        .status();
    made.is_ok_and(|status| status.success()).then_some(out)
}

fn installed() -> Option<PathBuf> {
    println!("cargo:rerun-if-env-changed=PKG_CONFIG_PATH");
    let asked = Command::new("pkg-config").args(["--variable=libdir", "rme"]).output().ok()?;
    let folder = PathBuf::from(String::from_utf8(asked.stdout).ok()?.trim());
    folder.join("librme.a").exists().then_some(folder)
}
