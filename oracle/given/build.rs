//! Builds the given files of jxl-color, unmodified, as the crate `jxl_color`.
//!
//! The given `lib.rs` is that crate's root, and no package can name a root that lies outside it.
//! So the crate is put together in `OUT_DIR`, the given files beside the shims of what they lean
//! on, and compiled from here. Each given file is the one that `given.sha256` names, and each copy
//! is compared with it byte for byte, so that nobody builds against something else unnoticed.

#[path = "sha256.rs"]
mod sha256;

use std::env;
use std::fs;
use std::path::{Path, PathBuf};
use std::process::Command;

/// The crates that the given files lean on, each one file of `shims/`.
const STUBS: [&str; 3] = ["jxl_image", "jxl_threadpool", "tracing"];

fn main() {
    let package = PathBuf::from(env::var_os("CARGO_MANIFEST_DIR").unwrap());
    let out = PathBuf::from(env::var_os("OUT_DIR").unwrap());
    let root = out.join("jxl-color");
    println!("cargo::rerun-if-env-changed=JXL_COLOR_SRC");

    let shims = package.join("shims");
    let _ = fs::remove_dir_all(&root);
    copy_all(&shims.join("jxl-color"), &root);
    copy_given(&package, &root);

    for stub in STUBS {
        let source = shims.join(format!("{stub}.rs"));
        println!("cargo::rerun-if-changed={}", source.display());
        compile(stub, &source, &out, &[]);
    }
    compile("jxl_color", &root.join("lib.rs"), &out, &STUBS);
    println!("cargo::rustc-link-search=all={}", out.display());
}

/// Where the given files are: `JXL_COLOR_SRC`, seen from the repository's top folder.
fn given_folder(package: &Path) -> PathBuf {
    let top = package.ancestors().nth(2).unwrap();
    let path = env::var_os("JXL_COLOR_SRC").expect("JXL_COLOR_SRC: set it to the folder of jxl-color 0.11.0's source");
    top.join(path)
}

/// Copies the files that `given.sha256` lists, which has the form of `sha256sum`.
fn copy_given(package: &Path, root: &Path) {
    let folder = given_folder(package);
    let list = package.join("given.sha256");
    println!("cargo::rerun-if-changed={}", list.display());
    for line in read(&list, "the list of given files").split(|&b| b == b'\n') {
        let line = std::str::from_utf8(line).unwrap();
        let Some((sum, name)) = line.split_once("  ") else {
            assert!(line.is_empty(), "given.sha256: {line}");
            continue;
        };
        let source = folder.join(name);
        println!("cargo::rerun-if-changed={}", source.display());
        let given = read(&source, "a given file (set JXL_COLOR_SRC)");
        let found = sha256::hex(&given);
        assert_eq!(
            found,
            sum,
            "{} is not the file that we recorded",
            source.display()
        );

        let copy = root.join(Path::new(name).file_name().unwrap());
        fs::write(&copy, &given).unwrap();
        assert!(
            read(&copy, "a copy") == given,
            "{} is no true copy",
            copy.display()
        );
    }
}

fn read(path: &Path, what: &str) -> Vec<u8> {
    fs::read(path).unwrap_or_else(|e| panic!("{what}: {}: {e}", path.display()))
}

fn copy_all(from: &Path, to: &Path) {
    println!("cargo::rerun-if-changed={}", from.display());
    fs::create_dir_all(to).unwrap();
    for entry in fs::read_dir(from).unwrap() {
        let source = entry.unwrap().path();
        let target = to.join(source.file_name().unwrap());
        if source.is_dir() {
            copy_all(&source, &target);
        } else {
            println!("cargo::rerun-if-changed={}", source.display());
            fs::copy(&source, &target).unwrap();
        }
    }
}

/// Compiles one crate to an rlib in `out`, at the profile that the package is built with.
fn compile(name: &str, source: &Path, out: &Path, leans_on: &[&str]) {
    let mut rustc = Command::new(env::var_os("RUSTC").unwrap());
    rustc
        .args([
            "--edition",
            "2024",
            "--crate-type",
            "rlib",
            "--crate-name",
            name,
        ])
        .arg("--target")
        .arg(env::var_os("TARGET").unwrap())
        .arg("-C")
        .arg(format!("opt-level={}", env::var("OPT_LEVEL").unwrap()))
        .args(["-C", "debug-assertions=on", "-A", "dead_code"])
        .arg("--out-dir")
        .arg(out)
        .arg("-L")
        .arg(out)
        .arg(source);
    for crate_name in leans_on {
        rustc.arg("--extern").arg(crate_name);
    }
    let status = rustc.status().expect("rustc");
    assert!(status.success(), "{name} does not compile");
}
