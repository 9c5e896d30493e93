//! Finds the static library: in the folder that `TAPEWOAD_LIB` names (a relative
//! one starts at the repository's root), else in the repository's
//! target/staticlib. Only linking needs it: where it is not there, a check and the
//! documentation go on, and a program or test fails at its link.
use std::env;
use std::path::PathBuf;

/// No library has this name, so that the linker's message shows it.
const MISSING: &str = "tapewoad_is_not_there__run_make_staticlib__or_set_TAPEWOAD_LIB";

fn main() {
    println!("cargo::rerun-if-env-changed=TAPEWOAD_LIB");
    let manifest = PathBuf::from(env::var("CARGO_MANIFEST_DIR").expect("set by cargo"));
    let named = env::var("TAPEWOAD_LIB").unwrap_or_default();
    let folder = if named.is_empty() {
        "target/staticlib"
    } else {
        &named
    };
    let folder = manifest.join("../..").join(folder);
    let library = folder.join("libtapewoad.a");
    println!("cargo::rerun-if-changed={}", library.display());
    // For the test that links a C program.
    println!("cargo::rustc-env=TAPEWOAD_FOLDER={}", folder.display());
    if library.is_file() {
        println!("cargo::rustc-link-search=native={}", folder.display());
        println!("cargo::rustc-link-lib=static=tapewoad");
        return;
    }
    println!("cargo::rustc-link-lib=dylib={MISSING}");
    let library = library.display();
    println!("cargo::warning=the static library is not there, so nothing can be linked: {library}");
    println!(
        "cargo::warning=run `make staticlib` at the repository's root, which proves the port and writes it,"
    );
    println!("cargo::warning=or let TAPEWOAD_LIB name the folder of a libtapewoad.a");
}
