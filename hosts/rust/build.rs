//! Where the archive is: in the folder that CRSF_ARCHIVE_DIR names, as libcrsf.a or libhost.a. Without that variable: in the repository's
//! `target/staticlib`, or, where this package was installed (as PREFIX/share/crsf/rust), in PREFIX/lib.
use std::path::PathBuf;
use std::{env, process};

fn main() {
    println!("cargo:rerun-if-env-changed=CRSF_ARCHIVE_DIR");
    println!("cargo:rerun-if-changed=build.rs");
    let package = PathBuf::from(env::var_os("CARGO_MANIFEST_DIR").expect("cargo sets it"));
    let folder = match env::var_os("CRSF_ARCHIVE_DIR") {
        Some(named) => PathBuf::from(named),
        None if package.join("../../crates.txt").is_file() => package.join("../../target/staticlib"),
        None => package.join("../../../lib"),
    };
    let target = env::var("CARGO_CFG_TARGET_ARCH").unwrap_or_default();
    if target != "x86_64" {
        missing(&format!("the archive is for x86-64 and this build is for {target}: build with --target x86_64-unknown-linux-gnu"));
    }
    for name in ["crsf", "host"] {
        let archive = folder.join(format!("lib{name}.a"));
        println!("cargo:rerun-if-changed={}", archive.display());
        if archive.is_file() {
            println!("cargo:rustc-link-search=native={}", folder.display());
            println!("cargo:rustc-link-lib=static={name}");
            return;
        }
    }
    missing(&format!(
        "no archive libcrsf.a or libhost.a in {}. Write it first: `hosts/archive` in the repository, or `./install PREFIX` there. \
         Or name the folder that has it, as CRSF_ARCHIVE_DIR=PREFIX/lib",
        folder.display()
    ));
}

fn missing(what: &str) -> ! {
    eprintln!("crsf-host: {what}");
    process::exit(1)
}
