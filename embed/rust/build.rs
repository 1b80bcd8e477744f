//! Says where the static libraries are: in the folder that `FCWFA_LIB_DIR` names, or where `bin/build` puts them. If one of them is
//! not there, the build ends and names the command that makes it.
use std::env::var_os;
use std::path::{Path, PathBuf};
use std::process::exit;

/// The libraries, each by the name that `bin/build` takes.
const LIBRARIES: [&str; 5] = [
    "fcwfa_member",
    "fcwfa_simulator",
    "fcwfa_outcome",
    "fcwfa_why",
    "fcwfa_texts",
];

fn main() {
    let named = var_os("FCWFA_LIB_DIR")
        .filter(|named| !named.is_empty())
        .map(PathBuf::from);
    let folder = folder(named.as_deref());
    let is_missing = |library: &&str| !folder.join(file(library)).is_file();
    let missing: Vec<&str> = LIBRARIES.into_iter().filter(is_missing).collect();
    if !missing.is_empty() {
        eprint!("{}", words(&folder, &missing));
        exit(1);
    }
    println!("cargo:rerun-if-env-changed=FCWFA_LIB_DIR");
    if named.map_or(false, |named| named.is_relative()) {
        println!("cargo:rerun-if-env-changed=PWD");
    }
    for library in LIBRARIES {
        let file = folder.join(file(library));
        println!("cargo:rerun-if-changed={}", file.display());
        println!("cargo:rustc-link-lib=static={library}");
    }
    println!("cargo:rustc-link-search=native={}", folder.display());
}

/// The folder to look in, as an absolute path. A relative name counts from the folder in which cargo was called: cargo runs this program in
/// the package's folder, and leaves `PWD` as it was.
fn folder(named: Option<&Path>) -> PathBuf {
    let package = PathBuf::from(var_os("CARGO_MANIFEST_DIR").expect("cargo names the package"));
    match named {
        Some(named) => package.join(var_os("PWD").unwrap_or_default()).join(named),
        None => {
            let root = package.ancestors().nth(2).unwrap_or(&package);
            root.join("target/staticlib")
        }
    }
}

/// The name of a library's file.
fn file(library: &str) -> String {
    format!("lib{library}.a")
}

/// What to do about the libraries that are missing.
fn words(folder: &Path, missing: &[&str]) -> String {
    let mut words = format!("Not found in the folder {}:\n", folder.display());
    for library in missing {
        let file = file(library);
        words += &format!("    {file}, which this command makes: bin/build {library}\n");
    }
    words
        + "Call it in the repository's root; it writes to target/staticlib there.\n\
           The environment variable FCWFA_LIB_DIR may name another folder that holds the libraries.\n"
}
