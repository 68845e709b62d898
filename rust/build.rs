//! Finds the archive that `./install` made: in `RINDSADDLE_LIB_DIR`, else in `target/install/lib` of the repository.

use std::env;
use std::path::PathBuf;
use std::process::exit;

fn main() {
    println!("cargo:rerun-if-env-changed=RINDSADDLE_LIB_DIR");
    if env::var("CARGO_CFG_TARGET_ARCH").as_deref() != Ok("x86_64") {
        fail("the archive is for x86-64: build with --target x86_64-unknown-linux-gnu");
    }
    let own = PathBuf::from(env::var_os("CARGO_MANIFEST_DIR").expect("cargo sets it")).join("../target/install/lib");
    let folder = env::var_os("RINDSADDLE_LIB_DIR").map_or(own, PathBuf::from);
    let archive = folder.join("librindsaddle.a");
    println!("cargo:rerun-if-changed={}", archive.display());
    if !archive.is_file() {
        fail(&format!(
            "{} is missing: run `./install target/install` at the top of the repository, or set RINDSADDLE_LIB_DIR to the lib folder of where it was installed",
            archive.display()
        ));
    }
    println!("cargo:rustc-link-search=native={}", folder.display());
    println!("cargo:rustc-link-lib=static=rindsaddle");
}

fn fail(what: &str) -> ! {
    eprintln!("rindsaddle: {what}");
    exit(1);
}
