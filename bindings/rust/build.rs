//! Finds the archive `libgreenblr.a`, in this order: the folder GREENBLR_LIB_DIR; what pkg-config says of an installed greenblr
//! of this crate's version; the folder target/staticlib of the repository that the crate stands in.

use std::env;
use std::path::PathBuf;
use std::process::Command;

/// The folder of an installed archive of this version, by pkg-config.
fn installed() -> Option<PathBuf> {
    let version = env::var("CARGO_PKG_VERSION").ok()?;
    let wanted = format!("greenblr = {version}");
    let found =
        Command::new("pkg-config").args(["--variable=libdir", wanted.as_str()]).output().ok()?;
    let folder = String::from_utf8(found.stdout).ok()?;
    let folder = PathBuf::from(folder.trim());
    (found.status.success() && folder.join("libgreenblr.a").is_file()).then_some(folder)
}

fn main() {
    for name in ["GREENBLR_LIB_DIR", "PKG_CONFIG_PATH", "PKG_CONFIG_LIBDIR"] {
        println!("cargo:rerun-if-env-changed={name}");
    }
    let here = PathBuf::from(env::var("CARGO_MANIFEST_DIR").expect("cargo sets the folder"));
    let folder = match env::var("GREENBLR_LIB_DIR") {
        Ok(folder) => PathBuf::from(folder),
        Err(_) => installed().unwrap_or_else(|| here.join("../../target/staticlib")),
    };
    let archive = folder.join("libgreenblr.a");
    // The pages of the crate are made without the archive.
    if !archive.is_file() && env::var("DOCS_RS").is_err() {
        println!(
            "cargo:warning={} is not there: set GREENBLR_LIB_DIR to the folder of libgreenblr.a",
            archive.display()
        );
    }
    println!("cargo:rerun-if-changed={}", archive.display());
    println!("cargo:rustc-link-search=native={}", folder.display());
    println!("cargo:rustc-link-lib=static=greenblr");
}
