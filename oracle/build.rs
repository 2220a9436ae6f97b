//! Makes the built copy of the Rust, links the archives that exist and sets one cfg for each
//! `hannuvel_*` function found in them.

use std::env;
use std::path::{Path, PathBuf};
use std::process::Command;

const ARCHIVES: [&str; 2] = ["leaves", "hannuvel"];

fn main() {
    make_copy();
    println!("cargo:rerun-if-env-changed=HANNUVEL_ARCHIVES");
    let folder = archive_folder();
    println!("cargo:rustc-link-search=native={}", folder.display());
    for name in ARCHIVES {
        link(name, &folder.join(format!("lib{name}.a")));
    }
}

fn make_copy() {
    for input in ["make_copy.py", "upstream"] {
        println!("cargo:rerun-if-changed={input}");
    }
    let status = Command::new("python3")
        .args(["make_copy.py", "copy"])
        .status()
        .expect("python3 runs");
    assert!(status.success(), "make_copy.py failed");
}

fn archive_folder() -> PathBuf {
    match env::var_os("HANNUVEL_ARCHIVES") {
        Some(folder) => PathBuf::from(folder),
        None => Path::new(&env::var("CARGO_MANIFEST_DIR").unwrap()).join("../target/staticlib"),
    }
}

fn link(name: &str, archive: &Path) {
    println!("cargo:rerun-if-changed={}", archive.display());
    if !archive.exists() {
        return;
    }
    for function in functions(archive) {
        println!("cargo:rustc-cfg={function}");
    }
    println!("cargo:rustc-link-lib=static={name}");
}

fn functions(archive: &Path) -> Vec<String> {
    let output = Command::new("nm")
        .args(["--defined-only", "--extern-only"])
        .arg(archive)
        .output()
        .expect("nm runs");
    assert!(
        output.status.success(),
        "nm failed on {}",
        archive.display()
    );
    String::from_utf8_lossy(&output.stdout)
        .lines()
        .filter_map(|line| line.split(" T ").nth(1))
        .filter(|symbol| symbol.starts_with("hannuvel_"))
        .map(str::to_owned)
        .collect()
}
