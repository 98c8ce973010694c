//! What is on the stored lists, one module for each area.

pub mod decoder;
pub mod encoder;
pub mod limit;
pub mod signed;
pub mod streaming;
pub mod symbols;
pub mod varicode;

use list::line::Line;
use std::{fs, io, path::Path};

/// The limit before request 2026-06. The calls that were stored by then were written about it, and stay as they are.
const FORMER_LIMIT: usize = 4096;

/// The calls and the answers, as many lines of each.
#[derive(Default)]
pub struct Stored {
    calls: String,
    answers: String,
}

impl Stored {
    /// A comment among the calls, whose answer is an empty line.
    pub fn comment(&mut self, text: &str) {
        self.calls += &format!("# {text}\n");
        self.answers += "\n";
    }

    pub fn add(&mut self, line: Line) {
        self.calls += &(line.call + "\n");
        self.answers += &(line.answer + "\n");
    }

    pub fn write(&self, folder: &Path) -> io::Result<()> {
        fs::write(folder.join("stdin"), &self.calls)?;
        fs::write(folder.join("stdout"), &self.answers)
    }
}
