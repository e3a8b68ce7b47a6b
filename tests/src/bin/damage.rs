//! The damage run: for some seconds, mutated reels and frames through all entry points, compared with the model.

#[path = "../damaging/mod.rs"]
mod damaging;

use damaging::case::Case;
use damaging::command::{task, Run, Task, USAGE};
use damaging::compare::{calls, Found, LIBRARY};
use damaging::kept::Kept;
use damaging::life::life;
use damaging::make::case;
use damaging::met::Met;
use damaging::self_check::{seen_wrongs, trespass, unended};
use damaging::stored::{self, Answer, Collection};
use damaging::twin::{reading_calls, twin};
use flic_tests::model::Format;
use flic_tests::rng::mix;
use flic_tests::runner::calls::Call;
use flic_tests::runner::command::fail;
use flic_tests::runner::compare::Difference;
use flic_tests::runner::program::{print_bytes, print_difference as print_answers};
use flic_tests::ways::marks;
use std::collections::BTreeSet;
use std::io::IsTerminal;
use std::path::{Path, PathBuf};
use std::process::exit;
use std::time::{Duration, Instant, SystemTime, UNIX_EPOCH};

const SELF_CHECK_SEED: u64 = 20_264;
const PROGRESS: Duration = Duration::from_secs(3);
/// After so many cases every answer of every entry point must have been met.
const ENOUGH: u64 = 50_000;

fn main() {
    let arguments: Vec<String> = std::env::args().skip(1).collect();
    match task(&arguments) {
        Ok(Task::Run(run)) => long_run(&run),
        Ok(Task::Stored) => stored_cases(),
        Ok(Task::SelfCheck) => self_check(),
        Ok(Task::Replay(file)) => replay(&file),
        Ok(Task::Trespass(word)) => trespass(&word),
        Err(message) => {
            eprintln!("damage: {message}");
            eprintln!("{USAGE}");
            exit(2);
        }
    }
}

/// Makes calls of a case, and adds what was answered, and how its frame was read.
fn make_calls(
    case: &Case,
    calls: Vec<(Box<dyn Call>, u64)>,
    met: &mut Met,
    answers: &mut BTreeSet<Answer>,
) -> Result<(), Found> {
    for (call, seed) in calls {
        let entry = call.row().function;
        let (format, told) =
            (call.format(), LIBRARY.call(&*call, seed).map_err(|difference| (entry, difference))?.told);
        met.count(entry, format, told.number);
        answers.insert((entry, format, told.number));
        if entry == "read_frame" {
            for mark @ (name, kind) in marks(format, case.frame_bytes(), &told) {
                met.ways.count(mark);
                answers.insert((name, Format::Flc, kind));
            }
        }
    }
    Ok(())
}

/// A case, and the entry point of the difference that was met in it.
type Astray = (Case, Found);

/// Puts a case through every entry point and its twin through those that read frames, each kept before its calls, and gives
/// what was answered.
fn each_entry(case: &Case, met: &mut Met, keep: &mut dyn FnMut(&Case)) -> Result<BTreeSet<Answer>, Box<Astray>> {
    let mut answers = BTreeSet::new();
    keep(case);
    make_calls(case, calls(case), met, &mut answers)
        .and_then(|()| life(case, &mut |entry, format, number| met.count(entry, format, number)))
        .map_err(|found| Box::new((case.clone(), found)))?;
    if let Some(twin) = twin(case) {
        keep(&twin);
        make_calls(&twin, reading_calls(&twin), met, &mut answers).map_err(|found| Box::new((twin.clone(), found)))?;
    }
    met.cases += 1;
    Ok(answers)
}

fn seed_of_the_day() -> u64 {
    SystemTime::now().duration_since(UNIX_EPOCH).map_or(1, |since| since.as_secs())
}

fn last_path() -> PathBuf {
    Path::new(env!("CARGO_MANIFEST_DIR")).join("../target/damage/last.bin")
}

fn long_run(run: &Run) {
    let base = run.base.unwrap_or_else(seed_of_the_day);
    println!("damage: {} seconds from base seed {base}", run.seconds);
    self_check();
    let path = run.last.clone().unwrap_or_else(last_path);
    let mut kept = Kept::at(&path).unwrap_or_else(|error| {
        fail(&format!("damage: {} can't be made: {error}", path.display()), "name another file with --last")
    });
    let (started, mut told) = (Instant::now(), Instant::now());
    let (mut met, mut collection) = (Met::default(), Collection::default());
    let on_terminal = std::io::stderr().is_terminal();
    while started.elapsed() < Duration::from_secs(run.seconds) {
        let case = case(mix(base, met.cases));
        match each_entry(&case, &mut met, &mut |case| kept.keep(case)) {
            Ok(answers) if run.collect => collection.take(&case, &answers),
            Ok(_) => {}
            Err(astray) => found(&astray),
        }
        if on_terminal && told.elapsed() > PROGRESS {
            told = Instant::now();
            eprint!("\rdamage: {} s, {} cases, {} calls ", started.elapsed().as_secs(), met.cases, met.calls());
        }
    }
    if on_terminal {
        eprintln!();
    }
    kept.remove();
    met.print();
    if run.collect {
        collect(&collection);
    }
    if met.cases >= ENOUGH {
        require_all_met(&met);
    }
    println!("damage: base seed {base}, {}", met.summary());
}

fn collect(collection: &Collection) {
    match collection.store() {
        Ok(stored) => println!("damage: {stored} cases stored in damage/cases"),
        Err(error) => fail(&format!("damage: the cases can't be stored: {error}"), "make the directory writable"),
    }
}

fn require_all_met(met: &Met) {
    if !met.missing().is_empty() {
        let missing = met.missing().join(", ");
        fail(&format!("damage: answers never met (0: done): {missing}"), "make cases that meet them");
    }
}

fn print_case(case: &Case) {
    let Case { format, width, height, speed, reel, .. } = case;
    println!("  format {format}, size {width} by {height}, speed {speed}, {reel:?}");
    println!("  rooms {} for a frame, {} for a listing; frame at {:?}", case.frame_room, case.list_room, case.frame);
    for (name, state) in [("first", &case.first), ("second", &case.second)] {
        print_bytes(&format!("{name} picture"), &state.picture);
        print_bytes(&format!("{name} palette"), &state.palette);
    }
    print_bytes("bytes", &case.bytes);
}

fn print_difference(case: &Case, entry: &str, difference: &Difference) {
    println!("damage: a difference in flic_{}", entry);
    print_case(case);
    print_answers(difference);
}

/// Stores a case in which library and model differ, and ends the run.
fn found((case, (entry, difference)): &Astray) -> ! {
    print_difference(case, entry, difference);
    match stored::store(case, &stored::found_name(case)) {
        Ok(path) => fail(&format!("  stored as {path}"), &replaying(&path)),
        Err(error) => fail(&format!("  not stored: {error}"), "make the directory of the stored cases writable"),
    }
}

fn replaying(path: &str) -> String {
    format!("put it through the calls alone with: cargo run --release --bin damage -- --replay {path}")
}

/// Prints and stores the case of a file, and puts it through each entry point, which is named before it is called.
fn replay(file: &Path) {
    let case = stored::load(file).unwrap_or_else(|message| fail(&message, "hand in the file of a case"));
    print_case(&case);
    if !stored::is_stored(file) {
        match stored::store(&case, &stored::found_name(&case)) {
            Ok(path) => println!("  stored as {path}"),
            Err(error) => println!("  not stored: {error}"),
        }
    }
    let twin = twin(&case);
    let mut aloud = [Some(&case), twin.as_ref()].into_iter().flatten();
    if let Some((case, (entry, difference))) = aloud.find_map(|case| Some((case, each_entry_aloud(case).err()?))) {
        print_difference(case, entry, &difference);
        fail("damage: this case shows a difference", "make this call alone and follow where the two part");
    }
    println!("damage: no difference in this case");
}

/// The calls of a case, each named before it is made.
fn each_entry_aloud(case: &Case) -> Result<(), Found> {
    for (call, seed) in calls(case) {
        let entry = call.row().function;
        println!("  flic_{entry} ..");
        let number = LIBRARY.call(&*call, seed).map_err(|difference| (entry, difference))?.told.number;
        println!("    library and model both answer {number}");
    }
    println!("  a whole reel from its states ..");
    life(case, &mut |_, _, _| {})
}

fn stored_cases() {
    self_check();
    let files = stored::files().unwrap_or_else(|error| {
        fail(&format!("damage: no stored cases: {error}"), "the stored cases stand in tests/damage/cases")
    });
    let mut met = Met::default();
    for file in &files {
        let case = stored::load(file).unwrap_or_else(|message| fail(&message, "take this file away or store it anew"));
        if let Err(astray) = each_entry(&case, &mut met, &mut |_| {}) {
            let (case, (entry, difference)) = &*astray;
            print_difference(case, entry, difference);
            let name = file.file_name().unwrap_or_default().to_string_lossy();
            fail(&format!("damage: stored case {name}"), &replaying(&format!("damage/cases/{name}")));
        }
    }
    met.ways.print();
    require_all_met(&met);
    println!("damage: stored cases, {}", met.summary());
}

fn self_check() {
    let wrongs = seen_wrongs(SELF_CHECK_SEED);
    let unseen: Vec<&str> = wrongs.iter().filter(|wrong| wrong.seen.is_none()).map(|wrong| &wrong.name[..]).collect();
    if !unseen.is_empty() {
        fail(&format!("self-check: not seen: {}", unseen.join(", ")), "make cases that show this");
    }
    match unended() {
        Ok(words) if words.is_empty() => {}
        Ok(words) => fail(&format!("self-check: guard pages let {words:?} pass"), "look at pages.rs"),
        Err(error) => fail(&format!("self-check: no child process: {error}"), "run damage where it may start itself"),
    }
    let latest = wrongs.iter().filter_map(|wrong| wrong.seen).max().unwrap_or(0);
    println!(
        "damage: self-check passed, {} wrong functions seen within {latest} cases, guard pages end what touches them",
        wrongs.len()
    );
}
