//! What is lent to a call that answers by a report.

use crate::buffer::{Buffer, UNTOUCHED};
use oracle::call::Lent;
use std::fmt;

pub struct Reporting {
    pub work_floats: Buffer,
    pub work_numbers: Buffer,
    pub report: Buffer,
}

impl Reporting {
    pub fn lent(work: &Lent, report: usize) -> Reporting {
        Reporting {
            work_floats: Buffer::new(work.work_floats),
            work_numbers: Buffer::new(work.work_words),
            report: Buffer::new(report),
        }
    }

    fn intact(&self) -> bool {
        [&self.work_floats, &self.work_numbers, &self.report].iter().all(|buffer| buffer.intact())
    }

    /// Whether it holds this report, so many zeros in both works, and nothing else that it did not hold before.
    pub fn holds(&self, report: &[u32], work: usize) -> bool {
        let zeros = vec![0; work];
        self.intact()
            && self.work_floats.begins_with(&zeros)
            && self.work_numbers.begins_with(&zeros)
            && self.report.begins_with(report)
    }
}

impl fmt::Display for Reporting {
    fn fmt(&self, f: &mut fmt::Formatter) -> fmt::Result {
        let word = |&word: &u32| if word == UNTOUCHED { " -".to_string() } else { format!(" {word}") };
        writeln!(f, "its report:{}", self.report.entries().iter().map(word).collect::<String>())?;
        let not_zero = |buffer: &Buffer| buffer.entries().iter().filter(|&&word| word != 0).count();
        let (floats, numbers) = (not_zero(&self.work_floats), not_zero(&self.work_numbers));
        writeln!(f, "not zero are {floats} work floats and {numbers} work numbers")?;
        if !self.intact() {
            writeln!(f, "the library wrote outside its buffers")?;
        }
        Ok(())
    }
}
