//! Links the proved archive, libloftsplice.a: from the folder that `LOFTSPLICE_LIB` names, or from this repository's target/staticlib.
use std::env;
use std::path::PathBuf;

fn main() {
    println!("cargo:rerun-if-env-changed=LOFTSPLICE_LIB");
    let folder = match env::var_os("LOFTSPLICE_LIB") {
        Some(folder) => PathBuf::from(folder),
        None => PathBuf::from(env::var_os("CARGO_MANIFEST_DIR").expect("cargo sets it"))
            .join("../../target/staticlib"),
    };
    let archive = folder.join("libloftsplice.a");
    println!("cargo:rerun-if-changed={}", archive.display());
    if !archive.exists() {
        eprintln!("loftsplice: there is no {}", archive.display());
        eprintln!("loftsplice: make it by `bash scripts/archive` in the repository's root (it proves the library first),");
        eprintln!("loftsplice: or name the folder that holds it in the environment variable LOFTSPLICE_LIB");
        std::process::exit(1);
    }
    println!("cargo:rustc-link-search=native={}", folder.display());
    println!("cargo:rustc-link-lib=static=loftsplice");
}
