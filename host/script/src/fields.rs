//! A line's fields, taken one by one; what is left over is an error.
use std::fmt::{self, Display, Formatter};

/// What is wrong with a script, and on which line.
#[derive(Debug, Clone, PartialEq, Eq)]
pub struct ScriptError {
    pub line: usize,
    pub message: String,
}

impl ScriptError {
    pub fn new(line: usize, message: impl Into<String>) -> Self {
        Self {
            line,
            message: message.into(),
        }
    }
}

impl Display for ScriptError {
    fn fmt(&self, f: &mut Formatter<'_>) -> fmt::Result {
        write!(f, "line {}: {}", self.line, self.message)
    }
}

impl std::error::Error for ScriptError {}

pub(crate) struct Fields<'a> {
    verb: &'a str,
    entries: Vec<(&'a str, &'a str)>,
}

impl<'a> Fields<'a> {
    /// The verb and its fields; `None` for a line with neither.
    pub fn read(line: &'a str) -> Result<Option<Self>, String> {
        let text = line.split('#').next().unwrap_or("");
        let mut words = text.split_ascii_whitespace();
        let Some(verb) = words.next() else {
            return Ok(None);
        };
        let mut entries: Vec<(&str, &str)> = Vec::new();
        for word in words {
            let (key, value) = word
                .split_once('=')
                .ok_or_else(|| format!("`{word}` is not a key=value field"))?;
            if entries.iter().any(|(other, _)| *other == key) {
                return Err(format!("field `{key}` is given twice"));
            }
            entries.push((key, value));
        }
        Ok(Some(Self { verb, entries }))
    }

    pub fn verb(&self) -> &'a str {
        self.verb
    }

    /// Takes a field's value through `read`, whose message says what it is not.
    pub fn take<T>(
        &mut self,
        key: &str,
        read: impl FnOnce(&'a str) -> Result<T, String>,
    ) -> Result<T, String> {
        let place = self.entries.iter().position(|(name, _)| *name == key);
        let place = place.ok_or_else(|| format!("`{}` lacks the field `{key}`", self.verb))?;
        let (_, value) = self.entries.remove(place);
        read(value).map_err(|message| format!("field `{key}`: {message}"))
    }

    /// Every field must have been taken.
    pub fn finish(self) -> Result<(), String> {
        match self.entries.first() {
            None => Ok(()),
            Some((key, _)) => Err(format!("`{}` has no field `{key}` here", self.verb)),
        }
    }
}
