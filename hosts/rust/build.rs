//! Links `libswartabelk.a`: of the folder that `SWARTABELK_LIB` names, or where `tools/archive` writes it.
use std::env;
use std::path::{Path, PathBuf};

const ARCHIVE: &str = "libswartabelk.a";

fn main() {
    let named = env::var_os("SWARTABELK_LIB").map(PathBuf::from);
    let package = env::var_os("CARGO_MANIFEST_DIR").expect("cargo gives the package's folder");
    let repository = Path::new(&package).ancestors().nth(2);
    let built = repository.map(|folder| folder.join("target/staticlib"));
    let folder = named.clone().or(built).unwrap_or_default();
    let archive = folder.join(ARCHIVE);
    println!("cargo::rerun-if-env-changed=SWARTABELK_LIB");
    println!("cargo::rerun-if-changed={}", archive.display());
    if !archive.is_file() {
        let wanted = archive.display();
        if named.is_some() {
            println!(
                "cargo::error=there is no {wanted}: SWARTABELK_LIB names the folder of {ARCHIVE}"
            );
        } else {
            println!("cargo::error=there is no {wanted}; to write it, in the repository's first folder: tools/archive");
            println!("cargo::error=or SWARTABELK_LIB names the folder of an archive that you have");
        }
        return;
    }
    let machine = env::var("CARGO_CFG_TARGET_ARCH").unwrap_or_default();
    if machine != "x86_64" && named.is_none() {
        println!("cargo::warning={ARCHIVE} of tools/archive is for x86-64, and this is built for {machine}");
    }
    println!("cargo::rustc-link-search=native={}", folder.display());
    println!("cargo::rustc-link-lib=static=swartabelk");
}
