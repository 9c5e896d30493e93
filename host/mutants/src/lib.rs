//! Mutants: the port with one small change each, compiled without proof, and
//! what tells them from the Rust.
mod built;
mod edit;
mod table;
mod tools;
mod trial;

pub use built::Built;
pub use edit::{Edit, edits};
pub use table::{Row, page};
pub use tools::Tools;
pub use trial::{Amount, Found, Trial, Verdict};

use std::path::{Path, PathBuf};

/// The repository's root.
pub fn root() -> PathBuf {
    Path::new(env!("CARGO_MANIFEST_DIR")).join("../..")
}
