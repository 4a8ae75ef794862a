//! Finds the archive libvcube.a and has it linked. The documentation of the crate says where it is looked for.
//!
//! A missing archive is a warning here and no error, since `cargo check`, `cargo clippy`, `cargo doc` and editors need only the declarations. What
//! is to be linked fails at this crate: rustc does not find the library, and cargo prints the warning with that error.

use std::env;
use std::path::{Path, PathBuf};
use std::process::Command;

const ARCHIVE: &str = "libvcube.a";

fn main() {
    for name in ["VCUBE_LIB_DIR", "PKG_CONFIG", "PKG_CONFIG_PATH", "PKG_CONFIG_LIBDIR"] {
        println!("cargo::rerun-if-env-changed={name}");
    }
    println!("cargo::rustc-link-lib=static=vcube");
    match archive_folder() {
        Ok(folder) => {
            println!("cargo::rustc-link-search=native={}", folder.display());
            println!("cargo::rerun-if-changed={}", folder.join(ARCHIVE).display());
        }
        Err(missing) => {
            println!(
                "cargo::warning={missing}. Until then `cargo check` works, but nothing can be linked."
            );
            // This path is never there, so cargo runs this program again each time.
            println!("cargo::rerun-if-changed={ARCHIVE}");
        }
    }
}

/// The folder that holds the archive; or how to get it, in words.
fn archive_folder() -> Result<PathBuf, String> {
    if let Some(folder) = variable("VCUBE_LIB_DIR") {
        return with_archive(&folder)
            .ok_or_else(|| format!("VCUBE_LIB_DIR is {folder}, where no {ARCHIVE} is: set it to the folder that holds it"));
    }
    let in_repository = repository_folder().and_then(with_archive);
    let found = in_repository.or_else(|| installed_folder().and_then(with_archive));
    found.ok_or_else(|| {
        let target = variable("TARGET").unwrap_or_default();
        format!(
            "no {ARCHIVE} for {target} is found: run `make archive` in the repository of vcube (for x86-64 Linux), or `make install` and let \
             pkg-config find vcube, or set VCUBE_LIB_DIR to the folder that holds one"
        )
    })
}

/// A variable of the environment that is set, and not empty.
fn variable(name: &str) -> Option<String> {
    env::var(name).ok().filter(|value| !value.is_empty())
}

/// The folder's whole path, if the archive is there.
fn with_archive(folder: impl AsRef<Path>) -> Option<PathBuf> {
    let folder = folder.as_ref().canonicalize().ok()?;
    folder.join(ARCHIVE).is_file().then_some(folder)
}

/// Where `make archive` writes the archive, if it is for the processor and system that are compiled for.
fn repository_folder() -> Option<PathBuf> {
    let is_x86_64_linux = variable("CARGO_CFG_TARGET_ARCH")? == "x86_64"
        && variable("CARGO_CFG_TARGET_OS")? == "linux";
    let crate_folder = PathBuf::from(variable("CARGO_MANIFEST_DIR")?);
    is_x86_64_linux.then(|| crate_folder.join("../../target/staticlib"))
}

/// Where pkg-config says that the library is installed, which it says of this computer only.
fn installed_folder() -> Option<PathBuf> {
    if variable("HOST") != variable("TARGET") {
        return None;
    }
    let program = variable("PKG_CONFIG").unwrap_or_else(|| "pkg-config".to_string());
    let said = Command::new(program).args(["--variable=libdir", "vcube"]).output().ok()?;
    let folder = String::from_utf8(said.stdout).ok()?;
    (said.status.success() && !folder.trim().is_empty()).then(|| PathBuf::from(folder.trim()))
}
