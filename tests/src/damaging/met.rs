//! What a damage run has met: how often each entry point was called, what it answered, and how frames were read.

use flic_tests::model::Format;
use flic_tests::runner::calls::ROWS;
use flic_tests::ways::Ways;
use std::collections::{BTreeMap, BTreeSet};

/// How many refusals document 01's table and document 02 have.
const REFUSALS: usize = 20;

#[derive(Default)]
pub struct Met {
    pub cases: u64,
    /// How frames were read: in two passes or in one.
    pub ways: Ways,
    numbers: BTreeMap<(&'static str, Format, u32), u64>,
}

impl Met {
    pub fn count(&mut self, entry: &'static str, format: Format, number: u32) {
        *self.numbers.entry((entry, format, number)).or_default() += 1;
    }

    pub fn calls(&self) -> u64 {
        self.numbers.values().sum()
    }

    fn refusals(&self) -> BTreeSet<u32> {
        self.numbers.keys().map(|(_, _, number)| *number).filter(|number| *number != 0).collect()
    }

    /// The answers that an entry point can give of each format and that none of its calls gave, and what no frame met on its
    /// way, in words.
    pub fn missing(&self) -> Vec<String> {
        let rows = ROWS.iter().flat_map(|row| Format::BOTH.map(|format| (row, format)));
        let answers = rows
            .flat_map(|(row, format)| row.numbers_of(format).iter().map(move |number| (row.function, format, *number)));
        let missing = answers.filter(|answer| !self.numbers.contains_key(answer));
        let in_words = |(entry, format, number)| format!("{} {number}", named(entry, format));
        missing.map(in_words).chain(self.ways.missing()).collect()
    }

    /// One line for each entry point and format: its calls, those that were done, and the refusals with their numbers.
    pub fn print(&self) {
        for (entry, format) in ROWS.iter().flat_map(|row| Format::BOTH.map(|format| (row.function, format))) {
            let of_both = self.numbers.iter().filter(|((of, its, _), _)| (*of, *its) == (entry, format));
            let answers: Vec<(u32, u64)> = of_both.map(|((_, _, number), times)| (*number, *times)).collect();
            let calls: u64 = answers.iter().map(|(_, times)| times).sum();
            let done: u64 = answers.iter().filter(|(number, _)| *number == 0).map(|(_, times)| times).sum();
            let refused: Vec<String> = answers
                .iter()
                .filter(|(number, _)| *number != 0)
                .map(|(number, times)| format!("{number}: {times}"))
                .collect();
            if calls > 0 {
                let name = named(entry, format);
                println!("  {name:17} {calls:9} calls, {done:9} done; refused {}", refused.join(", "));
            }
        }
        self.ways.print();
    }

    /// The last line of a good run.
    pub fn summary(&self) -> String {
        let met = self.refusals().len();
        let Met { cases, .. } = self;
        format!("{cases} cases, {} calls, {met} of {REFUSALS} refusals met, 0 differences", self.calls())
    }
}

/// An entry point by its name, of an FLI with that in front.
pub fn named(entry: &str, format: Format) -> String {
    match format {
        Format::Flc => entry.to_string(),
        Format::Fli => format!("fli-{entry}"),
    }
}
