//! Finds the static library that `tools/build.sh ddm_c` writes (and, for the figures, that of ddm_stages): target/staticlib of the
//! repository, or the folder that REKVASHU_LIB names. `cargo check` and `cargo doc` link nothing and do without it, so that a library
//! that isn't there is a warning here, and an error of whatever is linked.
use std::path::PathBuf;

fn main() {
    println!("cargo:rerun-if-env-changed=REKVASHU_LIB");
    let folder = match std::env::var_os("REKVASHU_LIB") {
        Some(folder) => PathBuf::from(folder),
        None => PathBuf::from("../target/staticlib"),
    };
    // a path from here on, since the linker is called from elsewhere
    let folder = std::env::current_dir().map(|here| here.join(&folder)).unwrap_or(folder);
    let library = folder.join("libddm_c.a");
    println!("cargo:rerun-if-changed={}", library.display());
    println!("cargo:rustc-link-search=native={}", folder.display());
    println!("cargo:rustc-link-lib=static=ddm_c");
    if !library.exists() {
        println!("cargo:warning={} is not there, so nothing can be linked; check and doc work all the same", library.display());
        println!("cargo:warning=make it by `tools/build.sh ddm_c` in the repository, or name its folder in REKVASHU_LIB");
    }
    let target = |key: &str| std::env::var(key).unwrap_or_default();
    if target("CARGO_CFG_TARGET_ARCH") != "x86_64" || target("CARGO_CFG_TARGET_OS") != "linux" {
        println!("cargo:warning=libddm_c.a is for x86-64 Linux, and this build is for another machine");
    }
}
