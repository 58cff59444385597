//! Finds libmainctx.a: in MAINCTX_LIB_DIR, else where pkg-config says that it is installed, else in bindings/c/out of this checkout.

use std::env;
use std::path::{Path, PathBuf};
use std::process::{exit, Command};

const VARIABLE: &str = "MAINCTX_LIB_DIR";
const ARCHIVE: &str = "libmainctx.a";
const WAYS: &str = "\
mainctx: no libmainctx.a. One of these finds it:
  make -C bindings/c, beside this crate
  make -C bindings/c install PREFIX=/usr/local, where there is a pkg-config
  MAINCTX_LIB_DIR=/folder/of/the/archive";

/// The folder that pkg-config names, where there is a pkg-config and a mainctx.pc.
fn installed() -> Option<PathBuf> {
    let told = Command::new("pkg-config")
        .args(["--variable=libdir", "mainctx"])
        .output()
        .ok()?;
    let folder = String::from_utf8(told.stdout).ok()?;
    Some(PathBuf::from(folder.trim()))
        .filter(|folder| told.status.success() && folder.join(ARCHIVE).exists())
}

/// The folder in which make of bindings/c leaves it.
fn built() -> Option<PathBuf> {
    let folder = Path::new(env!("CARGO_MANIFEST_DIR")).join("../c/out");
    folder
        .canonicalize()
        .ok()
        .filter(|folder| folder.join(ARCHIVE).exists())
}

fn main() {
    println!("cargo:rerun-if-env-changed={VARIABLE}");
    println!("cargo:rerun-if-env-changed=PKG_CONFIG_PATH");
    let named = env::var_os(VARIABLE).map(PathBuf::from);
    let folder = named.or_else(installed).or_else(built).unwrap_or_else(|| {
        eprintln!("{WAYS}");
        exit(1)
    });
    println!("cargo:rerun-if-changed={}", folder.join(ARCHIVE).display());
    println!("cargo:rustc-link-search=native={}", folder.display());
    println!("cargo:rustc-link-lib=static=mainctx");
}
