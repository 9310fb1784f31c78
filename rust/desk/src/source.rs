//! Where a plan's bytes came from, so that a place in them can be said as a person finds it.

use crate::form::{compile, in_words, Compiled};
use crate::layout::shortened;

/// A plan file, or the text that it was compiled from.
pub struct Source {
    pub name: String,
    pub compiled: Compiled,
}

impl Source {
    /// A plan file as it is.
    pub fn file(name: String, bytes: Vec<u8>) -> Self {
        let compiled = Compiled::of_file(bytes);
        Self { name, compiled }
    }

    /// A text, compiled; or the complaints about it, in lines.
    pub fn text(name: String, text: &[u8]) -> Result<Self, Vec<String>> {
        match compile(text) {
            Ok(compiled) => Ok(Self { name, compiled }),
            Err(complaints) => Err(in_words(&name, &complaints)),
        }
    }

    pub fn bytes(&self) -> &[u8] {
        &self.compiled.bytes
    }

    /// The line that made the byte at an offset, as "FILE:LINE: TEXT"; nothing if there is no text.
    pub fn line_at(&self, offset: usize) -> Option<String> {
        let (line, text) = self.compiled.line_at(offset)?;
        Some(format!("{}:{line}: {}", self.name, shortened(text, 100)))
    }

    /// "line N" of the text if there is one, else "offset N".
    pub fn place(&self, offset: usize) -> String {
        match self.compiled.line_at(offset) {
            Some((line, _)) => format!("line {line}"),
            None => format!("offset {offset}"),
        }
    }
}
