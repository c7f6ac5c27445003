//! Says where the archive of `tools/proved dock_c` is, in `DOCK_LIBS`, in this repository's target/staticlib or where pkg-config knows
//! it, and whether the compiler has `core::error::Error`.

use std::env;
use std::path::PathBuf;
use std::process::Command;

/// `core::error::Error` exists from this minor version on.
const HAS_CORE_ERROR: u32 = 81;
/// From this version on cargo warns about a cfg that it does not know. Some earlier versions warn if they are told one.
const ASKS_FOR_NAMES: u32 = 80;

fn main() {
    let here = env::var_os("CARGO_MANIFEST_DIR").map_or_else(PathBuf::new, PathBuf::from);
    let own = here.join("../target/staticlib");
    let folder = match env::var_os("DOCK_LIBS") {
        Some(named) => PathBuf::from(named),
        None if own.join("libdock.a").exists() => own,
        None => installed().unwrap_or(own),
    };
    let archive = folder.join("libdock.a");
    println!("cargo:rerun-if-env-changed=DOCK_LIBS");
    println!("cargo:rerun-if-env-changed=PKG_CONFIG_PATH");
    println!("cargo:rerun-if-changed=build.rs");
    println!("cargo:rerun-if-changed={}", archive.display());
    println!("cargo:rustc-link-search=native={}", folder.display());
    println!("cargo:rustc-link-lib=static=dock");

    // A build that only checks links nothing. So this is a warning, and the rest is left to the linker.
    if let Some(target) = other_target() {
        println!("cargo:warning=libdock.a is for x86-64 Linux. A build for {target} can be checked, and cannot be linked.");
    } else if !archive.exists() {
        println!(
            "cargo:warning=there is no {}: run tools/proved dock_c, or set DOCK_LIBS or PKG_CONFIG_PATH",
            archive.display()
        );
    }

    // A compiler whose version is unknown counts as an old one: the package then has one trait less.
    let minor = minor_version().unwrap_or(0);
    if minor >= ASKS_FOR_NAMES {
        println!("cargo:rustc-check-cfg=cfg(dock_core_error)");
    }
    if minor >= HAS_CORE_ERROR {
        println!("cargo:rustc-cfg=dock_core_error");
    }
}

/// The folder of an installed archive, if pkg-config exists and knows it.
fn installed() -> Option<PathBuf> {
    let output = Command::new("pkg-config")
        .args(["--variable=libdir", "dock"])
        .output()
        .ok()?;
    let words = String::from_utf8(output.stdout).ok()?;
    let folder = words.trim_end_matches('\n');
    if output.status.success() && !folder.is_empty() {
        return Some(PathBuf::from(folder));
    }
    None
}

/// The target that is built for, if it is not that of the archive.
fn other_target() -> Option<String> {
    let is = |name: &str, value: &str| env::var(name).map_or(true, |found| found == value);
    if is("CARGO_CFG_TARGET_ARCH", "x86_64")
        && is("CARGO_CFG_TARGET_OS", "linux")
        && is("CARGO_CFG_TARGET_POINTER_WIDTH", "64")
    {
        return None;
    }
    env::var("TARGET").ok()
}

/// The 63 of `rustc 1.63.0`. There is no Rust 2 yet.
fn minor_version() -> Option<u32> {
    let output = Command::new(env::var_os("RUSTC")?)
        .arg("--version")
        .output()
        .ok()?;
    let words = String::from_utf8(output.stdout).ok()?;
    let version = words.strip_prefix("rustc 1.")?;
    version.split('.').next()?.parse().ok()
}
