//! Links the static library where the environment names its folder. Without it the package builds and runs over `standard` alone.

fn main() {
    println!("cargo::rerun-if-env-changed=SWARTABELK_LIB");
    let Ok(folder) = std::env::var("SWARTABELK_LIB") else {
        return;
    };
    println!("cargo::rustc-cfg=swartabelk");
    println!("cargo::rustc-link-search=native={folder}");
    println!("cargo::rustc-link-lib=swartabelk");
    println!("cargo::rerun-if-changed={folder}");
}
