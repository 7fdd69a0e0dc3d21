//! Finds the library: in `$NVMED_PREFIX/lib`, or where pkg-config finds `nvmed`, or else `nvmed-tried`.
//!
//! The crate learns by `NVMED_LIBRARY` which it was: `proved`, `tried` (the archive says so itself, whatever its name), `stub` or `missing`.

use std::env;
use std::fs;
use std::path::{Path, PathBuf};
use std::process::Command;

/// What an archive that was built without proofs has in it.
const MARK: &[u8] = b"nvmed-tried: built without proofs";

/// The archives' names, without `lib` and `.a`, the first that is there counts.
const NAMES: [&str; 2] = ["nvmed", "nvmed-tried"];

fn main() {
    for name in ["NVMED_PREFIX", "PKG_CONFIG_PATH", "PKG_CONFIG_LIBDIR"] {
        println!("cargo:rerun-if-env-changed={name}");
    }
    println!("cargo:rerun-if-changed=build.rs");
    println!("cargo:rustc-env=NVMED_LIBRARY={}", library());
}

/// Says where the library is, and of which kind it is.
fn library() -> &'static str {
    if env::var_os("CARGO_FEATURE_STUB").is_some() {
        return "stub";
    }
    let found = match env::var_os("NVMED_PREFIX") {
        Some(prefix) => in_prefix(&PathBuf::from(prefix).join("lib")),
        None => NAMES.iter().find_map(|name| archive(installed(name)?, name)),
    };
    let Some((folder, name)) = found else {
        println!("cargo:warning=there is no libnvmed.a: install it by `bench/c.sh install PREFIX` (or `bench/c.sh try install PREFIX`), and set NVMED_PREFIX=PREFIX; or build with the feature `stub`");
        return "missing";
    };
    let file = file_of(&folder, name);
    println!("cargo:rustc-link-search=native={}", folder.display());
    println!("cargo:rustc-link-lib=static={name}");
    println!("cargo:rerun-if-changed={}", file.display());
    if name == NAMES[1] || is_marked(&file) {
        println!(
            "cargo:warning={} was built without its proofs: use it for trials alone",
            file.display()
        );
        return "tried";
    }
    "proved"
}

/// The archive of a folder. Where there is none, cargo looks again each time.
fn in_prefix(folder: &Path) -> Option<(PathBuf, &'static str)> {
    let found = NAMES.iter().find_map(|name| archive(folder.to_path_buf(), name));
    if found.is_none() {
        println!("cargo:rerun-if-changed={}", file_of(folder, NAMES[0]).display());
    }
    found
}

fn file_of(folder: &Path, name: &str) -> PathBuf {
    folder.join(format!("lib{name}.a"))
}

/// The folder and the name of an archive, if it is there.
fn archive(folder: PathBuf, name: &str) -> Option<(PathBuf, &str)> {
    file_of(&folder, name).is_file().then_some((folder, name))
}

fn is_marked(file: &Path) -> bool {
    fs::read(file).is_ok_and(|bytes| bytes.windows(MARK.len()).any(|window| window == MARK))
}

/// The folder that an installed library's description names.
fn installed(name: &str) -> Option<PathBuf> {
    let output = Command::new("pkg-config")
        .args(["--variable=libdir", name])
        .output()
        .ok()?;
    let text = String::from_utf8(output.stdout).ok()?;
    let folder = text.trim();
    (output.status.success() && !folder.is_empty()).then(|| PathBuf::from(folder))
}
