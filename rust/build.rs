//! Links the proved core, `target/staticlib/liblunozhar.a` of the repository. `LUNOZHAR_LIB` names another folder that holds it.

use std::env;
use std::path::PathBuf;

fn main() {
    println!("cargo:rerun-if-env-changed=LUNOZHAR_LIB");
    let folder = match env::var_os("LUNOZHAR_LIB") {
        Some(folder) => PathBuf::from(folder),
        None => PathBuf::from(env::var_os("CARGO_MANIFEST_DIR").unwrap()).join("../target/staticlib"),
    };
    let archive = folder.join("liblunozhar.a");
    println!("cargo:rerun-if-changed={}", archive.display());
    if !archive.exists() {
        panic!("{} is not there: run `./library` in the repository first", archive.display());
    }
    println!("cargo:rustc-link-search=native={}", folder.display());
    println!("cargo:rustc-link-lib=static=lunozhar");
}
