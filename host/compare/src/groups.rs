//! The count of groups, and a line of report for each: of one area, and of all together.

use std::process::ExitCode;

/// How one group ended: so many cases, all the same, or the first case that differs, in full.
pub type Outcome = Result<u64, String>;

#[derive(Default)]
pub struct Groups {
    passed: u64,
    failed: u64,
    lines: Vec<String>,
}

impl Groups {
    /// Reports a group; one without a case shows nothing, and counts as failed.
    pub fn report(&mut self, what: &str, outcome: Outcome) {
        let outcome = match outcome {
            Ok(0) => Err("no case was run".to_string()),
            other => other,
        };
        match outcome {
            Ok(cases) => {
                self.passed += 1;
                self.lines.push(format!("{what}: {cases} cases, same"));
            }
            Err(case) => {
                self.failed += 1;
                self.lines.push(format!("{what}: DIFFERS\n{case}"));
            }
        }
    }

    /// Prints the lines of an area, and counts its groups with the others.
    pub fn add(&mut self, area: Groups) {
        area.lines.iter().for_each(|line| println!("{line}"));
        self.passed += area.passed;
        self.failed += area.failed;
    }

    /// The last line, and the exit status.
    pub fn finish(self) -> ExitCode {
        println!("{} passed, {} failed", self.passed, self.failed);
        ExitCode::from(u8::from(self.failed > 0))
    }
}
