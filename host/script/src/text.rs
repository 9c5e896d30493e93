//! A file's bytes as text.
use crate::ScriptError;

/// The text, or the line that is none.
pub fn text(bytes: Vec<u8>) -> Result<String, ScriptError> {
    String::from_utf8(bytes).map_err(|error| {
        let good = &error.as_bytes()[..error.utf8_error().valid_up_to()];
        let line = good.iter().filter(|byte| **byte == b'\n').count() + 1;
        ScriptError::new(line, "not UTF-8 text")
    })
}
