//! Says where `libdrecerunya.a` is: in the folder that `DRECERUNYA_LIB` names, or where `embed/archive` writes it.
use std::env;
use std::path::PathBuf;

fn main() {
    println!("cargo:rerun-if-env-changed=DRECERUNYA_LIB");
    let here = PathBuf::from(env::var_os("CARGO_MANIFEST_DIR").unwrap_or_default());
    let folder = env::var_os("DRECERUNYA_LIB").map_or_else(|| here.join("../target/staticlib"), PathBuf::from);
    let archive = folder.join("libdrecerunya.a");
    if !archive.is_file() {
        println!("cargo:warning={} is not there: run `embed/archive`, or set DRECERUNYA_LIB to its folder", archive.display());
    }
    if env::var("CARGO_CFG_TARGET_ARCH").as_deref() != Ok("x86_64") {
        println!("cargo:warning=libdrecerunya.a links only into x86-64 programs");
    }
    println!("cargo:rerun-if-changed={}", archive.display());
    println!("cargo:rustc-link-search=native={}", folder.display());
    println!("cargo:rustc-link-lib=static=drecerunya");
}
