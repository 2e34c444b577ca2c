//! Links libjambpepper.a, which `build-library` writes to target/staticlib of the repository. JAMBPEPPER_LIB names another folder.
use std::{env, path::PathBuf};

fn main() {
    println!("cargo:rerun-if-env-changed=JAMBPEPPER_LIB");
    let folder = match env::var_os("JAMBPEPPER_LIB") {
        Some(folder) => PathBuf::from(folder),
        None => {
            PathBuf::from(env::var_os("CARGO_MANIFEST_DIR").unwrap()).join("../../target/staticlib")
        }
    };
    let library = folder.join("libjambpepper.a");
    if !library.exists() {
        panic!(
            "{} is not there: run `./build-library` in the repository, or set JAMBPEPPER_LIB to its folder",
            library.display()
        );
    }
    println!("cargo:rerun-if-changed={}", library.display());
    println!("cargo:rustc-link-search=native={}", folder.display());
    println!("cargo:rustc-link-lib=static=jambpepper");
}
