//! Takes the Rust's own text, checks it against source.sha256 and lays it out, unchanged, where src/lib.rs includes it. The text is not in
//! this repository: it is looked for in ../shared/docs/src from the project's root, or where LOFTSPLICE_RUST_SOURCE says. Where that folder is not
//! there, the package builds without the Rust (cfg `rust_text` is off) and says so.
//!
//! LOFTSPLICE_RUST_MUTANT names a folder with a changed text instead (scripts/mutants); only then the sums are not asked for.
use std::{env, fs, path::Path, path::PathBuf};

include!("sha256.rs");

const MODULES: [&str; 5] = ["rle", "vector", "columnscan", "filter_interval", "run_length_encodable"];

fn main() {
    println!("cargo:rerun-if-env-changed=LOFTSPLICE_RUST_SOURCE");
    println!("cargo:rerun-if-env-changed=LOFTSPLICE_RUST_MUTANT");
    println!("cargo:rerun-if-changed=build.rs");
    println!("cargo:rerun-if-changed=sha256.rs");
    println!("cargo:rerun-if-changed=source.sha256");
    let here = PathBuf::from(env::var("CARGO_MANIFEST_DIR").unwrap());
    let given = env::var("LOFTSPLICE_RUST_SOURCE").map_or_else(|_| here.join("../../shared/docs/src"), PathBuf::from);
    let mutant = env::var("LOFTSPLICE_RUST_MUTANT").ok().filter(|m| !m.is_empty());
    println!("cargo:rustc-env=ORACLE_MUTANT={}", mutant.as_deref().unwrap_or(""));
    let source = match &mutant {
        Some(folder) => {
            println!("cargo:warning=MUTANT: the Rust's text is taken from {folder} and is NOT checked against source.sha256");
            PathBuf::from(folder)
        }
        None => given,
    };
    println!("cargo:rerun-if-changed={}", source.display());
    if !source.is_dir() {
        println!("cargo:warning=the folder with the Rust's text is not there: {}", source.display());
        println!("cargo:warning=set LOFTSPLICE_RUST_SOURCE to it; without it the Rust is not compared, only the model and the port");
        return;
    }
    let out = PathBuf::from(env::var("OUT_DIR").unwrap());
    let sums = fs::read_to_string(here.join("source.sha256")).expect("oracle/source.sha256");
    for line in sums.lines() {
        let (sum, name) = line.split_once("  ").expect("a line of source.sha256: sum, two blanks, name");
        lay(&source, &out, name, if mutant.is_none() { Some(sum) } else { None });
    }
    fs::write(out.join("tree.rs"), tree(&out)).expect("tree.rs");
    println!("cargo:rustc-cfg=rust_text");
}

/// Copies one file of the text, after a look at its sum.
fn lay(source: &Path, out: &Path, name: &str, sum: Option<&str>) {
    let from = source.join(name);
    let text = fs::read(&from).unwrap_or_else(|e| panic!("{name} is missing in {}: {e}", source.display()));
    if let Some(sum) = sum {
        let got = sha256(&text);
        assert!(got == sum, "{} is not the text that was agreed on: sha256 {got}, stored {sum}", from.display());
    }
    let module = name.rsplit("--").next().unwrap().trim_end_matches(".txt");
    fs::write(out.join(module), text).expect("a copy of the text");
}

/// The modules of the text at their own paths, and around them what src/standins.rs has in place of the rest of the crate.
fn tree(out: &Path) -> String {
    let file = |m: &str| {
        assert!(MODULES.contains(&m));
        let path = out.join(format!("{m}.rs"));
        format!("#[path = {path:?}] #[allow(dead_code, unused_imports, clippy::all)] pub(crate) mod {m};")
    };
    format!(
        "pub(crate) mod columnar {{
    pub(crate) use crate::standins::columnbuilder;
    pub(crate) mod column {{ pub(crate) use crate::standins::Column; {} {} }}
    {}
    pub(crate) mod operations {{ pub(crate) use crate::standins::kinds::*; {} }}
}}
pub(crate) mod datatypes {{
    pub(crate) use crate::standins::datatypes::*;
    {}
    pub(crate) use run_length_encodable::RunLengthEncodable;
}}
",
        file("rle"),
        file("vector"),
        file("columnscan"),
        file("filter_interval"),
        file("run_length_encodable"),
    )
}
