//! Finds liblldpa.a for the linker. If there is no archive of the right version, the crate's compilation
//! says so and ends; `cargo doc` needs none.

use std::env;
use std::fs;
use std::path::{Path, PathBuf};
use std::process::Command;

const ARCHIVE: &str = "liblldpa.a";

/// The first two numbers of the crate's version. The archive must have the same first number, and a
/// second one that is not smaller.
const WANTED: (&str, &str) = (env!("CARGO_PKG_VERSION_MAJOR"), env!("CARGO_PKG_VERSION_MINOR"));

const ADVICE: &str = "tools/library/library.sh of lldpa's repository builds liblldpa.a, and the package \
    liblldpa-dev has it. Set LLDPA_LIB_DIR to the folder that has it.";

/// The octets before the version in the archive. The version is a little-endian u32.
const BEFORE_VERSION: &[u8] = b"liblldpa version\0\0\0\0";

/// Returns the folder in `LLDPA_LIB_DIR`, if set.
fn named() -> Option<PathBuf> {
    Some(PathBuf::from(env::var_os("LLDPA_LIB_DIR")?))
}

/// Returns the output folder of tools/library/library.sh, if it contains an archive.
fn built() -> Option<PathBuf> {
    let top = Path::new(env!("CARGO_MANIFEST_DIR")).join("../..");
    let folder = top.join("crates/lldpa_c/out/lib").canonicalize().ok()?;
    folder.join(ARCHIVE).is_file().then_some(folder)
}

/// Returns the library folder that pkg-config reports, if it contains an archive.
fn installed() -> Option<PathBuf> {
    let asked = Command::new("pkg-config").args(["--variable=libdir", "lldpa"]).output().ok()?;
    let folder = PathBuf::from(String::from_utf8(asked.stdout).ok()?.trim());
    folder.join(ARCHIVE).is_file().then_some(folder)
}

/// Returns the first two numbers of an archive's version, or None if it is not found.
fn version_of(archive: &Path) -> Option<(u32, u32)> {
    let octets = fs::read(archive).ok()?;
    let found = octets.windows(BEFORE_VERSION.len()).position(|octets| octets == BEFORE_VERSION)?;
    let number = octets.get(found + BEFORE_VERSION.len()..)?.get(..4)?;
    let number = u32::from_le_bytes(number.try_into().ok()?);
    Some((number / 10000, number / 100 % 100))
}

/// True if this crate can use an archive of this version.
fn fits(major: u32, minor: u32) -> bool {
    WANTED.0.parse() == Ok(major) && WANTED.1.parse().map_or(false, |least: u32| least <= minor)
}

/// Returns the folder of an archive that fits, or why there is none.
fn found() -> Result<PathBuf, String> {
    let folder = named().or_else(built).or_else(installed).ok_or(format!("there is no {ARCHIVE}"))?;
    let archive = folder.join(ARCHIVE);
    println!("cargo:rerun-if-changed={}", archive.display());
    let name = archive.display();
    if !archive.is_file() {
        return Err(format!("LLDPA_LIB_DIR is {}, which has no {ARCHIVE}", folder.display()));
    }
    match version_of(&archive) {
        Some((major, minor)) if fits(major, minor) => Ok(folder),
        Some((major, minor)) => Err(format!(
            "{name} is of version {major}.{minor}, and this crate needs {}.{} or a later {0}.x",
            WANTED.0, WANTED.1
        )),
        None => Err(format!("{name} does not say its version")),
    }
}

fn main() {
    println!("cargo:rerun-if-env-changed=LLDPA_LIB_DIR");
    match found() {
        Ok(folder) => {
            println!("cargo:rustc-link-search=native={}", folder.display());
            println!("cargo:rustc-link-lib=static=lldpa");
        }
        Err(why) => {
            println!("cargo:rerun-if-changed=no-archive"); // no such file, so this runs each time
            println!("cargo:rustc-env=LLDPA_HAS_NO_ARCHIVE={why}. {ADVICE}");
        }
    }
}
