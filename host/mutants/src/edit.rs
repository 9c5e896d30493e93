//! `*.edit` files: a comment that says what the change is, a `file:` line with a
//! path from the repository's root, and pairs of `old:` and `new:` lines, as in
//! crates/*/must-fail. `survives: REASON` says why nothing can show the change,
//! `was: CRATE/NAME` that it stood in crates/CRATE/must-fail before.
use std::fs;
use std::path::Path;

use crate::Built;

#[derive(Debug, Clone, Default, PartialEq, Eq)]
pub struct Edit {
    pub name: String,
    /// What the change is, in a line.
    pub what: String,
    pub file: String,
    /// Old texts and the new ones, replaced one after the other.
    pub changes: Vec<(String, String)>,
    /// Why nothing can show it.
    pub survives: Option<String>,
    /// The edits of crates/*/must-fail that it stands for.
    pub was: Vec<String>,
}

impl Edit {
    pub fn parse(name: &str, text: &str) -> Result<Self, String> {
        let mut lines = text.lines();
        let what = lines.next().and_then(|line| line.strip_prefix("# "));
        let mut edit = Self {
            name: name.into(),
            what: what.ok_or("the first line is no `# ` comment")?.into(),
            ..Self::default()
        };
        let mut old = None;
        for line in lines {
            match line.split_once(": ") {
                Some(("file", path)) => edit.file = path.into(),
                Some(("old", text)) => old = Some(text),
                Some(("new", new)) => {
                    let old = old.take().ok_or("`new` before `old`")?;
                    edit.changes.push((old.into(), new.into()));
                }
                Some(("survives", reason)) => edit.survives = Some(reason.into()),
                Some(("was", edit_of_proof)) => edit.was.push(edit_of_proof.into()),
                _ => return Err(format!("a line that is none of an edit: `{line}`")),
            }
        }
        if edit.file.is_empty() || edit.changes.is_empty() || old.is_some() {
            return Err("no `file`, or no `old` and `new`".into());
        }
        Ok(edit)
    }

    /// What it is tried on, by the crate whose source it changes.
    pub fn built(&self) -> Result<Vec<Built>, String> {
        Built::of(self.file.split('/').nth(1).unwrap_or_default())
    }

    /// The file's text after the change. Each old text stands in it just once.
    pub fn apply(&self, text: &str) -> Result<String, String> {
        let mut text = text.to_owned();
        for (old, new) in &self.changes {
            text = match text.matches(old).count() {
                1 => text.replacen(old, new, 1),
                n => return Err(format!("`{old}` is in {} {n} times", self.file)),
            };
        }
        Ok(text)
    }
}

/// The edits of a folder, by name.
pub fn edits(folder: &Path) -> Result<Vec<Edit>, String> {
    let told = |error| format!("{}: {error}", folder.display());
    let mut found = Vec::new();
    for entry in fs::read_dir(folder).map_err(told)? {
        let path = entry.map_err(told)?.path();
        let Some(name) = path.file_name().and_then(|it| it.to_str()) else {
            continue;
        };
        if let Some(name) = name.strip_suffix(".edit") {
            let text = fs::read_to_string(&path).map_err(told)?;
            let edit = Edit::parse(name, &text);
            found.push(edit.map_err(|error| format!("{name}.edit: {error}"))?);
        }
    }
    found.sort_by(|a, b| a.name.cmp(&b.name));
    Ok(found)
}

#[cfg(test)]
mod tests {
    use super::*;

    const TEXT: &str = "# a lie\nfile: crates/words/src/lib.rt\nold:     1\nnew:     2\n";

    #[test]
    fn an_edit_is_read() {
        let edit = Edit::parse("lie", TEXT).unwrap();
        assert_eq!(edit.what, "a lie");
        assert_eq!(edit.built().unwrap(), [Built::Library, Built::Key]);
        assert_eq!((edit.survives, edit.was), (None, vec![]));
        assert_eq!(edit.changes, [("    1".into(), "    2".into())]);
        let more = format!("{TEXT}survives: it is true\nwas: a/one\nwas: b/two\n");
        let edit = Edit::parse("lie", &more).unwrap();
        assert_eq!(edit.survives.as_deref(), Some("it is true"));
        assert_eq!(edit.was, ["a/one", "b/two"]);
    }

    #[test]
    fn what_is_no_edit_is_refused() {
        let texts = [
            "",
            "file: a\n",
            "# only a comment\n",
            "# a\nold: x\nnew: y\n",
        ];
        for text in texts {
            assert!(Edit::parse("bad", text).is_err(), "{text}");
        }
        assert!(Edit::parse("bad", &format!("{TEXT}odd: line\n")).is_err());
        assert!(Edit::parse("bad", &format!("{TEXT}old: x\n")).is_err());
    }

    #[test]
    fn the_old_text_must_stand_once() {
        let edit = Edit::parse("lie", TEXT).unwrap();
        assert_eq!(edit.apply("{\n    1\n}\n").unwrap(), "{\n    2\n}\n");
        assert!(edit.apply("{\n}\n").is_err());
        assert!(edit.apply("    1\n    1\n").is_err());
    }
}
