//! Finds the library: in `TERNCOMMODE_DIR`, as `make_library DIR` places it, else in this package, where a release has one for each target,
//! else by pkg-config. What is linked in the first two cases is the archive, so that a program needs no library to run; in the third what
//! pkg-config says.

use std::env;
use std::path::{Path, PathBuf};
use std::process::{exit, Command};

fn main() {
    println!("cargo:rerun-if-changed=build.rs");
    for name in ["TERNCOMMODE_DIR", "PKG_CONFIG", "PKG_CONFIG_PATH"] {
        println!("cargo:rerun-if-env-changed={name}");
    }
    let ways: [fn() -> Result<(), String>; 3] = [from_folder, from_package, from_pkg_config];
    let mut reasons = Vec::new();
    let is_found = ways.iter().any(|way| way().map_err(|reason| reasons.push(reason)).is_ok());
    if !is_found {
        let reason = reasons.join("\n  ");
        eprintln!("terncommode-sys: the library of baggage contexts isn't found:\n  {reason}");
        eprintln!("Place it with `make_library DIR`, and set TERNCOMMODE_DIR to DIR, or PKG_CONFIG_PATH to DIR/lib/pkgconfig.");
        exit(1);
    }
}

fn from_folder() -> Result<(), String> {
    let folder = env::var("TERNCOMMODE_DIR").map_err(|_| "TERNCOMMODE_DIR isn't set".to_string())?;
    from(&Path::new(&folder).join("lib")).map_err(|archive| format!("TERNCOMMODE_DIR is {folder}, but there is no {archive}"))
}

fn from_package() -> Result<(), String> {
    let variable = |name| env::var_os(name).map(PathBuf::from).unwrap_or_default();
    let folder = variable("CARGO_MANIFEST_DIR").join("lib").join(variable("TARGET"));
    from(&folder).map_err(|archive| format!("this package has no {archive}"))
}

fn from(folder: &Path) -> Result<(), String> {
    let archive = folder.join("libbaggage.a");
    if !archive.is_file() {
        return Err(archive.display().to_string());
    }
    println!("cargo:rerun-if-changed={}", archive.display());
    println!("cargo:rustc-link-search=native={}", folder.display());
    println!("cargo:rustc-link-lib=static=baggage");
    Ok(())
}

fn from_pkg_config() -> Result<(), String> {
    let tool = env::var("PKG_CONFIG").unwrap_or_else(|_| "pkg-config".to_string());
    let output = Command::new(&tool)
        .args(["--libs", "--print-errors", "baggage >= 2.0.0", "baggage < 3.0.0"])
        .output()
        .map_err(|error| format!("{tool}: {error}"))?;
    if !output.status.success() {
        let said = String::from_utf8_lossy(&output.stderr);
        return Err(format!("{tool}: {}", said.lines().next().unwrap_or("it doesn't know baggage")));
    }
    for word in String::from_utf8_lossy(&output.stdout).split_whitespace() {
        match word.split_at(word.len().min(2)) {
            ("-L", folder) => println!("cargo:rustc-link-search=native={folder}"),
            ("-l", name) => println!("cargo:rustc-link-lib={name}"),
            _ => println!("cargo:rustc-link-arg={word}"),
        }
    }
    Ok(())
}
