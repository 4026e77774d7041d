//! Links the port's archive, libhost.a, from the folder that HOST_ARCHIVE names; and, where BEFORE_ARCHIVE names a folder, the earlier archive in it,
//! libbefore.a, whose symbols oracle/run has given the prefix `before_`.
fn main() {
    println!("cargo:rustc-check-cfg=cfg(before)");
    link("HOST_ARCHIVE", "host").expect("HOST_ARCHIVE names the folder of libhost.a: oracle/run sets it");
    if link("BEFORE_ARCHIVE", "before").is_some() {
        println!("cargo:rustc-cfg=before");
    }
}

/// Links the library in the folder that the variable names. None where it names none.
fn link(variable: &str, library: &str) -> Option<()> {
    println!("cargo:rerun-if-env-changed={variable}");
    let folder = std::env::var(variable).ok().filter(|folder| !folder.is_empty())?;
    println!("cargo:rerun-if-changed={folder}/lib{library}.a");
    println!("cargo:rustc-link-search=native={folder}");
    println!("cargo:rustc-link-lib=static={library}");
    Some(())
}
