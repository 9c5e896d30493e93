//! What a mutant is compiled to, by the crate that it changes.
use std::fs;

use crate::root;

#[derive(Debug, Clone, Copy, PartialEq, Eq)]
pub enum Built {
    /// The C library, driven by calls.
    Library,
    /// The program `key`, driven by papers.
    Key,
}

impl Built {
    /// What has the crate, by crates.txt, the library first.
    pub fn of(name: &str) -> Result<Vec<Self>, String> {
        let path = root().join("crates.txt");
        let list = fs::read_to_string(&path);
        let list = list.map_err(|error| format!("{}: {error}", path.display()))?;
        let has = |program: &str| {
            // `NAME: ..`, or `NAME staticlib: ..`.
            let mut lines = list.lines().filter_map(|line| line.split_once(": "));
            let below = lines.find(|(it, _)| it.split(' ').next() == Some(program));
            let below = below.map(|(_, below)| below);
            name == program || below.is_some_and(|it| it.split(' ').any(|it| it == name))
        };
        match (has("tapewoad"), has("key")) {
            (true, true) => Ok(vec![Self::Library, Self::Key]),
            (true, false) => Ok(vec![Self::Library]),
            (false, true) => Ok(vec![Self::Key]),
            (false, false) => Err(format!("neither the library nor `key` has crate `{name}`")),
        }
    }
}

#[cfg(test)]
mod tests {
    use super::*;

    #[test]
    fn a_crate_is_the_library_s_or_the_key_s_or_both_s() {
        let of = |name| Built::of(name).unwrap();
        for name in ["words", "rules", "calls"] {
            assert_eq!(of(name), [Built::Library, Built::Key], "{name}");
        }
        for name in ["direct", "dispatch", "tapewoad"] {
            assert_eq!(of(name), [Built::Library], "{name}");
        }
        for name in ["paper", "paper_session", "lines", "key"] {
            assert_eq!(of(name), [Built::Key], "{name}");
        }
        assert!(Built::of("history").is_err());
    }
}
