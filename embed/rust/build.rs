//! Finds `libraid6.a`: in the folder that `RAID6_LIB` names, else where pkg-config has `raid6`, else in `embed`.

use std::{env, path::Path, process::Command};

fn main() {
    println!("cargo::rerun-if-env-changed=RAID6_LIB");
    let folder = env::var("RAID6_LIB").ok().or_else(installed).unwrap_or_else(beside);
    let library = Path::new(&folder).join("libraid6.a");
    assert!(library.exists(), "no {}: `make` in embed makes it; RAID6_LIB names its folder", library.display());
    println!("cargo::rerun-if-changed={}", library.display());
    println!("cargo::rustc-link-search=native={folder}");
    println!("cargo::rustc-link-lib=static=raid6");
}

fn installed() -> Option<String> {
    let told = Command::new("pkg-config").args(["--variable=libdir", "raid6"]).output().ok()?;
    let folder = String::from_utf8(told.stdout).ok()?;
    told.status.success().then(|| folder.trim().to_owned())
}

fn beside() -> String {
    let here = env::var("CARGO_MANIFEST_DIR").expect("cargo sets it");
    Path::new(&here).join("..").display().to_string()
}
