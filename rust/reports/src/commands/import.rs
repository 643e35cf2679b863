//! The command that takes many reports.

use std::fs::File;
use std::io::{Read, Write};

use report_index::frame;

use super::{parse, report, Answer, Call, Surroundings};
use crate::failure::{Failure, REFUSED};
use crate::lines::{Line, Lines, LONGEST_LINE};
use crate::refused::Brought;
use crate::store::{tell, Store};
use crate::words::{in_threes, split};

/// So many bytes of frames are written and synced at a time, where not all is one group.
const WRITTEN_AT_A_TIME: usize = 1 << 20;

/// Takes a report from each line. Blank lines and lines that begin with `#` are passed over.
pub fn import(
    store: &mut Store,
    call: &Call,
    around: &mut Surroundings,
) -> Result<Answer, Failure> {
    // What was taken before does not belong to a group that begins here.
    store.keep()?;
    store.index()?;
    let mut file;
    let input: &mut dyn Read = match (call.words.first(), around.input.as_deref_mut()) {
        (Some(path), _) => {
            let opened = File::open(path);
            file = opened.map_err(|error| Failure::System(format!("{path}: {error}")))?;
            &mut file
        }
        (None, Some(input)) => input,
        (None, None) => {
            let text = "import takes a file here: the lines of standard input are commands";
            return Err(Failure::Usage(text.to_string()));
        }
    };
    let mut import = Import {
        first: store.next(),
        store,
        errors: around.errors,
        progress: around.progress,
        as_group: call.has("--all-or-nothing"),
        keep_numbers: call.has("--keep-numbers"),
        lines: 0,
        refused: 0,
    };
    let taken = import.take_lines(input);
    import.finish(taken)
}

/// An import under way.
struct Import<'a> {
    store: &'a mut Store,
    errors: &'a mut dyn Write,
    progress: bool,
    /// Whether all reports are one group.
    as_group: bool,
    /// Whether a refused report is replaced by one without lines.
    keep_numbers: bool,
    /// The number that the first report gets.
    first: usize,
    /// How many lines were read.
    lines: u64,
    /// How many of them were refused.
    refused: u64,
}

impl Import<'_> {
    /// Takes all lines of the input, and writes now and then.
    fn take_lines(&mut self, input: &mut dyn Read) -> Result<(), Failure> {
        let mut lines = Lines::new(input);
        loop {
            let waiting = lines.waiting();
            let waiting = waiting.map_err(|error| {
                let line = self.lines + 1;
                Failure::System(format!("line {line} cannot be read: {error}"))
            })?;
            if waiting.is_empty() {
                return Ok(());
            }
            for line in waiting {
                self.lines += 1;
                self.take_line(line)?;
            }
            self.show_progress();
        }
    }

    /// Takes the report of one line, or tells why it is refused.
    fn take_line(&mut self, line: Line) -> Result<(), Failure> {
        match self.try_line(line) {
            Ok(()) => {}
            Err(failure @ (Failure::Refused { .. } | Failure::Usage(_))) => {
                self.refused += 1;
                self.tell_refused(&failure)?;
            }
            Err(failure) => return Err(failure),
        }
        if !self.as_group && self.store.taken_bytes() >= WRITTEN_AT_A_TIME {
            self.store.keep()?;
        }
        Ok(())
    }

    fn try_line(&mut self, line: Line) -> Result<(), Failure> {
        let Line::Text(line) = line else {
            let most = in_threes(LONGEST_LINE as u64);
            return Err(Failure::Usage(format!("it has more than {most} bytes")));
        };
        let words = split(&line)?;
        if words.first().is_none_or(|word| word.starts_with('#')) {
            return Ok(());
        }
        let call = parse(words)?;
        if call.command.name != "report" {
            let text = "a line of an import begins with report";
            return Err(Failure::Usage(text.to_string()));
        }
        report::take(self.store, &call).map(|_| ())
    }

    /// Tells that a line was refused; where numbers are kept, takes a report without lines for it.
    fn tell_refused(&mut self, failure: &Failure) -> Result<(), Failure> {
        let line = self.lines;
        self.clear_progress();
        if !self.keep_numbers {
            tell(self.errors, &format!("line {line}: {failure}"));
            return Ok(());
        }
        let none: [(Vec<u8>, u32); 0] = [];
        let empty = frame::report(&none);
        let number = self.store.take(empty, Brought::Report(&none))?;
        let text = format!("line {line}: left out, report {number} has no lines: {failure}");
        tell(self.errors, &text);
        Ok(())
    }

    /// Writes what is left to write and sums up.
    fn finish(&mut self, taken: Result<(), Failure>) -> Result<Answer, Failure> {
        self.clear_progress();
        if self.as_group {
            self.finish_group(taken)?;
        } else {
            self.finish_rest(taken)?;
        }
        let mut answer = Answer::line(self.sum());
        if self.refused > 0 {
            answer.exit = REFUSED;
        }
        Ok(answer)
    }

    /// Writes all that was taken, or forgets it where a line was refused or could not be read.
    fn finish_group(&mut self, taken: Result<(), Failure>) -> Result<(), Failure> {
        let refused = self.refused > 0 && !self.keep_numbers;
        if refused || taken.is_err() {
            self.store.forget_taken();
        }
        taken?;
        if refused {
            let lines = in_threes(self.refused);
            let text = format!("nothing was taken, since {lines} lines are refused");
            return Err(Failure::rule(text));
        }
        self.store.keep_as_group()
    }

    /// Writes what was taken and not yet written. What was taken before a line that cannot be read
    /// stays.
    fn finish_rest(&mut self, taken: Result<(), Failure>) -> Result<(), Failure> {
        if !matches!(taken, Err(Failure::Fatal(_))) {
            self.store.keep()?;
            if taken.is_err() {
                let sum = self.sum();
                tell(self.errors, &sum);
            }
        }
        taken
    }

    /// What was taken, in one line.
    fn sum(&self) -> String {
        let end = self.store.next();
        let reports = in_threes((end - self.first) as u64);
        let mut sum = format!("{reports} reports taken");
        if end > self.first {
            sum.push_str(&format!(", numbers {} to {}", self.first, end - 1));
        }
        if self.refused > 0 {
            let left_out = if self.keep_numbers {
                "of them without lines, in place of refused ones"
            } else {
                "lines refused"
            };
            sum.push_str(&format!("; {} {left_out}", in_threes(self.refused)));
        }
        sum
    }

    fn show_progress(&mut self) {
        if self.progress {
            let lines = in_threes(self.lines);
            let _ = write!(self.errors, "\r{lines} lines");
            let _ = self.errors.flush();
        }
    }

    /// Makes room for another text where the progress stands.
    fn clear_progress(&mut self) {
        if self.progress {
            let _ = write!(self.errors, "\r\x1B[K");
        }
    }
}
