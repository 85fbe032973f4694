//! Finds the library and its headers: below the folder that `LIKES_PREFIX` names, or by pkg-config.

use std::env;
use std::process::Command;

fn main() {
    println!("cargo:rerun-if-env-changed=LIKES_PREFIX");
    println!("cargo:rerun-if-env-changed=PKG_CONFIG_PATH");
    let kind = if env::var_os("CARGO_FEATURE_STATIC").is_some() { "static" } else { "dylib" };
    println!("cargo:rustc-link-search=native={}", folder("lib", "libdir"));
    println!("cargo:rustc-link-lib={kind}=likes");
    println!("cargo:rustc-env=LIKES_INCLUDE={}", folder("include", "includedir"));
}

/// A folder of the installation, by its name below a prefix, and as a variable of pkg-config.
fn folder(name: &str, variable: &str) -> String {
    if let Ok(prefix) = env::var("LIKES_PREFIX") {
        return format!("{prefix}/{name}");
    }
    match Command::new("pkg-config").args([&format!("--variable={variable}"), "likes"]).output() {
        Ok(told) if told.status.success() => String::from_utf8_lossy(&told.stdout).trim().to_owned(),
        _ => panic!("pkg-config doesn't find likes: install liblikes-dev, or set LIKES_PREFIX to where the library is"),
    }
}
