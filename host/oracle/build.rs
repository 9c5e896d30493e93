//! Lays out the module tree that the originals expect, in the build folder:
//! the ten files as they are, and stand-ins for the modules that are missing.
use std::path::{Path, PathBuf};
use std::{env, fs};

/// The originals, below `lib/`.
const ORIGINALS: [&str; 10] = [
    "dal/local/teardown.rs",
    "domain/models.rs",
    "domain/models/control_plan.rs",
    "domain/models/ports.rs",
    "domain/models/requests.rs",
    "domain/services/explicit.rs",
    "domain/services/recovery.rs",
    "domain/services/requests.rs",
    "domain/services/session.rs",
    "domain/services/usb.rs",
];

const STANDINS: [&str; 3] = ["raw.rs", "descriptors.rs", "capabilities.rs"];

fn main() {
    println!("cargo:rerun-if-env-changed=FAH_SRC");
    let manifest = PathBuf::from(env::var("CARGO_MANIFEST_DIR").expect("set by cargo"));
    let tree = PathBuf::from(env::var("OUT_DIR").expect("set by cargo")).join("lib");
    let sources = sources(&manifest);
    for name in ORIGINALS {
        place(&sources.join("lib").join(name), &tree.join(name));
    }
    for name in STANDINS {
        let from = manifest.join("standin/models").join(name);
        place(&from, &tree.join("domain/models").join(name));
    }
    write(&tree.join("dal/mod.rs"), "pub mod local;\n");
    write(&tree.join("dal/local/mod.rs"), "pub mod teardown;\n");
    write(
        &tree.join("domain/mod.rs"),
        "pub mod models;\npub mod services;\n",
    );
    write(
        &tree.join("domain/services/mod.rs"),
        "pub mod explicit;\npub mod recovery;\npub mod requests;\npub mod session;\npub mod usb;\n",
    );
    let module = |name: &str| {
        let file = tree.join(name).join("mod.rs");
        format!("#[path = {file:?}]\n#[allow(warnings, clippy::all)]\npub mod {name};\n")
    };
    write(&tree.join("root.rs"), &(module("dal") + &module("domain")));
}

/// The folder that `FAH_SRC` names; a relative one starts at the repository.
fn sources(manifest: &Path) -> PathBuf {
    let named = env::var("FAH_SRC").unwrap_or_default();
    let folder = if named.is_empty() {
        "../shared/docs/src"
    } else {
        &named
    };
    manifest.join("../..").join(folder)
}

fn place(from: &Path, to: &Path) {
    println!("cargo:rerun-if-changed={}", from.display());
    let text = fs::read_to_string(from)
        .unwrap_or_else(|error| panic!("FAH_SRC: cannot read {}: {error}", from.display()));
    write(to, &text);
}

fn write(to: &Path, text: &str) {
    let folder = to.parent().expect("a file in a folder");
    fs::create_dir_all(folder).unwrap_or_else(|error| panic!("{}: {error}", folder.display()));
    fs::write(to, text).unwrap_or_else(|error| panic!("{}: {error}", to.display()));
}
