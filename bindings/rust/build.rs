// Where libexports.a stands: KUSTHRILA_LIB, else the folder that `build.sh exports` writes.
use std::env;
use std::path::PathBuf;

fn main() {
    let here = PathBuf::from(env::var("CARGO_MANIFEST_DIR").unwrap());
    let folder = env::var("KUSTHRILA_LIB").map(PathBuf::from).unwrap_or_else(|_| here.join("../../target/staticlib"));
    println!("cargo:rustc-link-search=native={}", folder.display());
    println!("cargo:rustc-link-lib=static=exports");
    println!("cargo:rerun-if-env-changed=KUSTHRILA_LIB");
    println!("cargo:rerun-if-changed={}", folder.join("libexports.a").display());
}
