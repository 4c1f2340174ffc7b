//! Finds the C library: in the folder ODFILTER_DIR, as `bindings/c/build FOLDER` leaves it, beside this crate in the
//! folder
//! `lib`, or by pkg-config. What is found is linked statically.
use std::path::Path;
use std::process::Command;
use std::{env, fs};

fn main() {
    println!("cargo:rerun-if-env-changed=ODFILTER_DIR");
    let beside = Path::new(&env::var("CARGO_MANIFEST_DIR").expect("cargo sets it")).join("lib");
    let folder = match env::var("ODFILTER_DIR") {
        Ok(folder) => Path::new(&folder).join("lib"),
        Err(_) if beside.join("libodfilter.a").exists() => beside,
        Err(_) => Path::new(&by_pkg_config()).to_path_buf(),
    };
    let archive = folder.join("libodfilter.a");
    if fs::metadata(&archive).is_err() {
        panic!("no {}: set ODFILTER_DIR to what bindings/c/build made", archive.display());
    }
    println!("cargo:rerun-if-changed={}", archive.display());
    println!("cargo:rustc-link-search=native={}", folder.display());
    println!("cargo:rustc-link-lib=static=odfilter");
}

/// The folder of the library that is installed.
fn by_pkg_config() -> String {
    let words = ["--variable=prefix", "odfilter"];
    let said = Command::new("pkg-config").args(words).output().map(|it| it.stdout);
    format!("{}/lib", String::from_utf8_lossy(&said.unwrap_or_default()).trim())
}
