//! What was measured, and its file of earlier numbers.
use std::fmt::Write;

use crate::timing::Measured;
use crate::workloads::{Growth, Workload};

/// Everything that a page shows.
pub struct Results {
    pub workloads: Vec<(Workload, Measured)>,
    pub growth: Vec<(Growth, Vec<Measured>)>,
    pub before: Vec<Row>,
}

/// A line of a file of earlier numbers.
#[derive(Debug, Clone, PartialEq)]
pub struct Row {
    pub name: String,
    /// Nanoseconds.
    pub rust: f64,
    /// Ratios to it.
    pub words: f64,
    pub session: f64,
}

const HEAD: &str = "# Written by `bench --save`: a workload, the Rust's nanoseconds, and the ratios of the C function and of UsbSession to them.\n";

impl Results {
    /// The earlier numbers of a workload.
    pub fn before(&self, name: &str) -> Option<&Row> {
        self.before.iter().find(|row| row.name == name)
    }

    /// The text of a file of these numbers.
    pub fn save(&self) -> String {
        let growth = self.growth.iter();
        let growth = growth.flat_map(|(growth, measured)| growth.workloads.iter().zip(measured));
        let workloads = self.workloads.iter().map(|(it, measured)| (it, measured));
        let mut text = String::from(HEAD);
        for (workload, measured) in workloads.chain(growth) {
            let (words, session) = (measured.words_ratio, measured.session_ratio);
            let _ = writeln!(
                text,
                "{}\t{:.1}\t{:.4}\t{:.4}",
                workload.name, measured.rust.median, words.median, session.median
            );
        }
        text
    }
}

impl Row {
    /// The rows of a saved file.
    ///
    /// # Errors
    /// The line that is none.
    pub fn read(text: &str) -> Result<Vec<Self>, String> {
        let lines = text.lines().filter(|line| !line.starts_with('#'));
        lines
            .map(|line| Self::parse(line).ok_or_else(|| format!("no row: {line:?}")))
            .collect()
    }

    fn parse(line: &str) -> Option<Self> {
        let mut words = line.split('\t');
        let row = Self {
            name: words.next()?.into(),
            rust: words.next()?.parse().ok()?,
            words: words.next()?.parse().ok()?,
            session: words.next()?.parse().ok()?,
        };
        words.next().is_none().then_some(row)
    }
}

#[cfg(test)]
mod tests {
    use super::*;

    #[test]
    fn a_line_is_a_name_and_three_numbers() {
        let row = Row {
            name: "close, 128 held".into(),
            rust: 1869.0,
            words: 2.7,
            session: 2.9,
        };
        let text = "# a comment\nclose, 128 held\t1869.0\t2.7\t2.9\n";
        assert_eq!(Row::read(text), Ok(vec![row]));
        for wrong in [
            "close",
            "close\t1\t2",
            "close\t1\t2\t3\t4",
            "close\t1\t2\tx",
        ] {
            assert!(Row::read(wrong).is_err(), "{wrong}");
        }
    }
}
