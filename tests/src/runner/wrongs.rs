//! What is wrong on purpose, and the search for inputs that show it: a comparison that can't fail says nothing.

use super::calls::{Call, ROWS};
use super::compare::{Comparer, Subject};
use super::guards::GuardBytes;
use super::inputs::Inputs;
use super::lent::{alignment, Lent, Side};
use super::told::Told;
use crate::model::{Format, Model, MODEL, PALETTE_BYTES};

/// Something wrong that stands in for the library, so that no fault of the library's can hide it; the calls in which it
/// must be seen; and after how many inputs it was.
pub struct Wrong {
    pub name: String,
    pub subject: Box<dyn Subject>,
    /// The functions in which it must be seen; none stands for any case.
    pub functions: Vec<&'static str>,
    /// The format in whose calls it must be seen; none stands for either.
    pub format: Option<Format>,
    pub seen: Option<u64>,
}

impl Wrong {
    pub fn of(name: impl Into<String>, subject: impl Subject + 'static, functions: &[&'static str]) -> Wrong {
        Wrong { name: name.into(), subject: Box::new(subject), functions: functions.to_vec(), format: None, seen: None }
    }

    /// The same, to be seen in calls of this format.
    pub fn of_format(self, format: Format) -> Wrong {
        Wrong { format: Some(format), ..self }
    }

    /// Whether it must be seen in calls such as this one.
    pub fn concerns(&self, call: &dyn Call) -> bool {
        self.functions.contains(&call.row().function) && self.format.is_none_or(|format| format == call.format())
    }
}

/// Goes through the families until everything wrong was seen.
pub fn see(wrongs: &mut [Wrong], families: &[&dyn Inputs], batches: u64, base: u64) {
    let mut inputs = 0;
    for batch in 0..batches {
        for family in families.iter().filter(|family| batch < family.batches()) {
            if wrongs.iter().all(|wrong| wrong.seen.is_some()) {
                return;
            }
            let seed = family.seed_of(base, batch);
            family.batch(seed, &mut |case| {
                inputs += 1;
                for wrong in wrongs.iter_mut().filter(|wrong| wrong.seen.is_none()) {
                    let comparer = Comparer { subject: &*wrong.subject, lender: &GuardBytes };
                    let differs = match case.call() {
                        _ if wrong.functions.is_empty() => comparer.case(&case, seed).is_err(),
                        Some(call) if wrong.concerns(call) => comparer.call(call, seed).is_err(),
                        _ => false,
                    };
                    if differs {
                        wrong.seen = Some(inputs);
                    }
                }
            });
        }
    }
}

/// The names of what was not seen.
pub fn unseen(wrongs: &[Wrong]) -> Vec<&str> {
    wrongs.iter().filter(|wrong| wrong.seen.is_none()).map(|wrong| &wrong.name[..]).collect()
}

/// What a trespasser does, besides what the model does, to one of the slices of a call.
#[derive(Clone, Copy, Debug, PartialEq, Eq)]
pub enum Deed {
    WritesBeside(Side),
    Changes,
    ChangesWhenRefused,
    /// Changes a byte past the bytes or words that the call says it wrote.
    ChangesPast,
    /// Changes the excess of a palette.
    ChangesExcess,
}

/// The model with a trespass.
#[derive(Clone, Copy)]
pub struct Trespasser {
    pub function: &'static str,
    pub slice: &'static str,
    pub deed: Deed,
}

impl Subject for Trespasser {
    fn call(&self, call: &dyn Call, lent: &mut Lent) -> Told {
        let told = call.model(&MODEL, lent);
        if call.row().function != self.function {
            return told;
        }
        let lends = call.row().lends;
        let which = lends.iter().position(|name| *name == self.slice).expect("a slice of this entry point");
        let (length, word) = (lent.length(which), alignment(call.row().aligned, which) as u64);
        match self.deed {
            Deed::WritesBeside(side) => lent.spoil_beside(which, side),
            Deed::Changes => lent.spoil_last(which),
            Deed::ChangesWhenRefused if told.number != 0 => lent.spoil_last(which),
            Deed::ChangesPast if told.number == 0 && told.length() * word < length as u64 => lent.spoil_last(which),
            Deed::ChangesExcess if length > PALETTE_BYTES => lent.spoil_last(which),
            _ => {}
        }
        told
    }
}

/// The model with an answer altered.
pub struct Telling<F> {
    pub function: &'static str,
    pub altered: F,
}

impl<F: Fn(Told) -> Told> Subject for Telling<F> {
    fn call(&self, call: &dyn Call, lent: &mut Lent) -> Told {
        let told = call.model(&MODEL, lent);
        if call.row().function == self.function {
            (self.altered)(told)
        } else {
            told
        }
    }
}

/// The model with one refusal left out, for each refusal of each entry point and format.
pub fn ignoring() -> Vec<Wrong> {
    let mut all = Vec::new();
    for (row, format) in ROWS.iter().flat_map(|row| Format::BOTH.map(|format| (row, format))) {
        for number in row.numbers_of(format).iter().filter(|number| **number != 0) {
            let altered =
                move |told: Told| if told.number == *number { Told { number: 0, place: 0, ..told } } else { told };
            let name = format!("{} without refusal {number} in {format:?}", row.function);
            let wrong = Wrong::of(name, Telling { function: row.function, altered }, &[row.function]);
            all.push(wrong.of_format(format));
        }
    }
    all
}

/// Wrong models by their names, to be seen in calls of these functions.
pub fn models(models: Vec<(String, Model)>, functions: &[&'static str]) -> Vec<Wrong> {
    models.into_iter().map(|(name, model)| Wrong::of(name, model, functions)).collect()
}
