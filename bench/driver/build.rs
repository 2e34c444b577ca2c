//! Compiles the readers that are in C, beside the libraries as Debian ships them.
use std::{env, path::Path, process::Command};

const SOURCES: [&str; 3] = ["c/bitstream.c", "c/callgrind.c", "c/dvbpsi.c"];

fn run(command: &mut Command) {
    let status = command.status().expect("the C compiler does not start");
    assert!(status.success(), "{command:?} failed");
}

fn main() {
    let out = env::var("OUT_DIR").unwrap();
    let mut archive = Command::new("ar");
    archive.arg("crs").arg(Path::new(&out).join("libreaders.a"));
    for source in SOURCES {
        let object = Path::new(&out)
            .join(Path::new(source).file_name().unwrap())
            .with_extension("o");
        run(Command::new("cc")
            .args([
                "-std=c11", "-O3", "-fPIC", "-Wall", "-Wextra", "-Werror", "-c", "-o",
            ])
            .arg(&object)
            .arg(source));
        archive.arg(&object);
    }
    run(&mut archive);
    println!("cargo:rerun-if-changed=c");
    println!("cargo:rustc-link-search=native={out}");
    println!("cargo:rustc-link-lib=static=readers");
    println!("cargo:rustc-link-lib=dvbpsi");
}
