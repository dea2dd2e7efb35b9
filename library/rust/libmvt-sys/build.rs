//! Finds libmvt: in the folder that MVT_LIB_DIR names (libmvt.a, else libmvt.so), in this crate, or by pkg-config.

use std::path::{Path, PathBuf};
use std::process::Command;
use std::{env, process};

fn main() {
    for name in ["MVT_LIB_DIR", "PKG_CONFIG", "PKG_CONFIG_PATH", "DOCS_RS"] {
        println!("cargo:rerun-if-env-changed={name}");
    }
    // Who makes documents links nothing.
    if env::var_os("DOCS_RS").is_some() {
        return;
    }
    if let Some(folder) = env::var_os("MVT_LIB_DIR") {
        link(Path::new(&folder));
    } else if let Some(folder) = prebuilt() {
        link(&folder);
    } else if !by_pkg_config() {
        eprintln!(
            "libmvt isn't found: install libmvt-dev, or let MVT_LIB_DIR name the folder of libmvt.a"
        );
        process::exit(1);
    }
}

/// The folder of this crate that has the library for the target.
fn prebuilt() -> Option<PathBuf> {
    let folder = Path::new(&env::var_os("CARGO_MANIFEST_DIR")?)
        .join("prebuilt")
        .join(env::var_os("TARGET")?);
    println!("cargo:rerun-if-changed={}", folder.display());
    folder.join("libmvt.a").exists().then_some(folder)
}

fn link(folder: &Path) {
    let kind = if folder.join("libmvt.a").exists() {
        "static"
    } else {
        "dylib"
    };
    println!("cargo:rerun-if-changed={}", folder.display());
    println!("cargo:rustc-link-search=native={}", folder.display());
    println!("cargo:rustc-link-lib={kind}=mvt");
}

fn by_pkg_config() -> bool {
    let command = env::var_os("PKG_CONFIG").unwrap_or_else(|| "pkg-config".into());
    let told = match Command::new(command)
        .args(["--libs-only-L", "mvt"])
        .output()
    {
        Ok(told) if told.status.success() => told.stdout,
        _ => return false,
    };
    for word in String::from_utf8_lossy(&told).split_whitespace() {
        let folder = word.trim_start_matches("-L");
        println!("cargo:rustc-link-search=native={folder}");
    }
    println!("cargo:rustc-link-lib=mvt");
    true
}
