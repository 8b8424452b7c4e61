//! Says where `libdrecerunya.a` is: in the folder that `DRECERUNYA_LIB` names, or where `embed/archive` writes it.
use std::env;
use std::path::PathBuf;

fn main() {
    println!("cargo:rerun-if-env-changed=DRECERUNYA_LIB");
    let here = PathBuf::from(env::var_os("CARGO_MANIFEST_DIR").unwrap_or_default());
    let folder = env::var_os("DRECERUNYA_LIB").map_or_else(|| here.join("../../target/staticlib"), PathBuf::from);
    println!("cargo:rerun-if-changed={}", folder.join("libdrecerunya.a").display());
    println!("cargo:rustc-link-search=native={}", folder.display());
    println!("cargo:rustc-link-lib=static=drecerunya");
}
