//! A test program: its self-check, the documents' examples, then the families of inputs, each case compared.

use super::calls::{Call, Row};
use super::command::{fail, task_or_exit, Task};
use super::compare::{Comparer, Difference, Library};
use super::examples::{astray, Example};
use super::guards::GuardBytes;
use super::inputs::{Case, Inputs};
use super::met::Met;
use super::wrongs::Wrong;

const LIBRARY: Comparer = Comparer { subject: &Library, lender: &GuardBytes };

pub struct Program {
    pub name: &'static str,
    /// What the last line counts.
    pub unit: &'static str,
    pub base: u64,
    pub families: Vec<&'static dyn Inputs>,
    /// No whole run may compare fewer.
    pub least: u64,
    /// The rows of the calls in them.
    pub rows: Vec<&'static Row>,
    pub examples: Vec<Example>,
    /// Everything wrong, and after how many inputs the families showed it.
    pub seen_wrongs: fn(u64) -> Vec<Wrong>,
    /// What is tried besides, once in a run.
    pub besides: fn(Comparer, u64),
}

impl Program {
    pub fn run(&self) {
        let names: Vec<&str> = self.families.iter().map(|family| family.name()).collect();
        match task_or_exit(self.name, &names, self.base) {
            Task::Whole { base } => self.whole(base),
            Task::SelfCheck => self.self_check(self.base),
            Task::Batch { family, seed } => self.one_batch(&family, seed),
        }
    }

    fn whole(&self, base: u64) {
        let name = self.name;
        println!("{name}: base seed {base}; a batch's seed follows from it, the family and the batch's number");
        self.self_check(base);
        self.named_examples(base);
        (self.besides)(LIBRARY, base);
        let mut met = Met::nothing(&self.rows);
        for family in &self.families {
            println!("{name}: family {}, {} batches", family.name(), family.batches());
            for batch in 0..family.batches() {
                self.batch(*family, family.seed_of(base, batch), &mut met);
            }
        }
        met.print();
        if !met.missing().is_empty() {
            let missed = format!("{name}: never met (0: done, or an unknown kind): {}", met.missing().join(", "));
            fail(&missed, "add inputs to the families that meet them");
        }
        if met.calls() < self.least {
            let only = format!("{name}: only {} {}", met.calls(), self.unit);
            fail(&only, &format!("raise the batches to {} or more", self.least));
        }
        println!("{name}: {} {} compared, 0 differences", met.calls(), self.unit);
    }

    fn one_batch(&self, family: &str, seed: u64) {
        let mut met = Met::nothing(&self.rows);
        for family in self.families.iter().filter(|one| one.name() == family) {
            self.batch(*family, seed, &mut met);
        }
        met.print();
        println!("{}: {} {} compared, 0 differences", self.name, met.calls(), self.unit);
    }

    fn batch(&self, family: &dyn Inputs, seed: u64, met: &mut Met) {
        let mut inputs = 0;
        family.batch(seed, &mut |case| {
            inputs += 1;
            match LIBRARY.case(&case, seed) {
                Ok(agreed) => met.count(&case, &agreed),
                Err(difference) => {
                    print_case(self.name, &case);
                    print_difference(&difference);
                    let (program, family) = (self.name, family.name());
                    let rerun = format!("rerun this batch alone with: {program} --family {family} --seed {seed}");
                    fail(&format!("  family {family}, seed {seed}, input {inputs}"), &rerun);
                }
            }
        });
    }

    fn named_examples(&self, base: u64) {
        if let Some(what) = self.examples.iter().find_map(|example| astray(example, LIBRARY, base)) {
            fail(&format!("{}: {what}", self.name), "make this call alone and follow the first byte that differs");
        }
        println!("{}: {} examples are as the documents say", self.name, self.examples.len());
    }

    fn self_check(&self, base: u64) {
        let wrongs = (self.seen_wrongs)(base);
        for Wrong { name, seen, .. } in &wrongs {
            match seen {
                Some(inputs) => println!("self-check: {name} seen after {inputs} inputs"),
                None => fail(&format!("self-check: {name} was not seen"), "add inputs to the families that show it"),
            }
        }
        println!("{}: self-check passed, {} wrong models seen", self.name, wrongs.len());
    }
}

/// Lower-case hex, two digits a byte.
pub fn hex(bytes: &[u8]) -> String {
    bytes.iter().map(|byte| format!("{byte:02x}")).collect()
}

/// How many bytes of a slice are printed.
const MOST_PRINTED: usize = 4_000;

/// Prints a slice that a difference was met with.
pub fn print_bytes(name: &str, bytes: &[u8]) {
    let printed = &bytes[..bytes.len().min(MOST_PRINTED)];
    let rest = if printed.len() < bytes.len() { " and more" } else { "" };
    println!("  {name}, {} bytes: {}{rest}", bytes.len(), hex(printed));
}

fn print_case(program: &str, case: &Case) {
    match (case, case.call()) {
        (Case::Play(case), _) => {
            println!("{program}: a difference in playing {} frames", case.states.len());
            println!("  {} by {}", case.width, case.height);
            print_bytes("reel", &case.bytes);
        }
        (Case::Live(case), _) => {
            print_call(program, &case.start);
            println!("  then ticks at readings {:?}", &case.readings[..case.readings.len().min(MOST_PRINTED)]);
        }
        (_, Some(call)) => print_call(program, call),
        _ => {}
    }
}

fn print_call(program: &str, call: &dyn Call) {
    println!("{program}: a difference in flic_{} or what follows it", call.row().function);
    println!("  {}", call.handed());
    for (name, slice) in call.row().lends.iter().zip(call.slices()) {
        print_bytes(name, slice);
    }
}

pub fn print_difference(difference: &Difference) {
    println!("  library: {}", difference.library);
    println!("  model:   {}", difference.model);
    println!("  differs: {}", difference.what);
}
