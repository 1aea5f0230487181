//! Links the library that `examples/c/install PREFIX` has put into the folder that `DIFFUSE_PREFIX` names.
use std::env;
use std::path::Path;
use std::process::exit;

fn main() {
    println!("cargo::rerun-if-env-changed=DIFFUSE_PREFIX");
    let Some(prefix) = env::var_os("DIFFUSE_PREFIX") else {
        println!("cargo::error=DIFFUSE_PREFIX must name the folder of `examples/c/install PREFIX`");
        exit(1);
    };
    let folder = Path::new(&prefix).join("lib");
    let archive = folder.join("libdiffuse.a");
    println!("cargo::rerun-if-changed={}", archive.display());
    if !archive.is_absolute() || !archive.exists() {
        println!("cargo::error=DIFFUSE_PREFIX must be a whole path, and there must be {}", archive.display());
        exit(1);
    }
    println!("cargo::rustc-link-search=native={}", folder.display());
    println!("cargo::rustc-link-lib=static=diffuse");
}
