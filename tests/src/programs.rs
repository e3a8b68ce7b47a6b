//! The six test programs that compare single calls, each with its families and what it must meet.

use crate::model::{Format, MAX_HEIGHT, MAX_WIDTH, PALETTE_BYTES};
use crate::players::night::{kept_time, night, Night, NIGHT};
use crate::rng::Rng;
use crate::runner::calls::{
    AddCase, CheckCase, CheckTrailerCase, CloseCase, HeaderCase, JiffiesCase, ListCase, MarkedCase, MillisecondsCase,
    OpenCase, OpenFliCase, ReadCase, ReplayCase, RewriteCase, SearchCase, StartCase, StepCase, TickCase, TileMapCase,
    WriteCase, WriteTrailerCase,
};
use crate::runner::command::fail;
use crate::runner::compare::Comparer;
use crate::runner::examples::{of_players, of_reading, of_reels, of_tiles, of_trailers, of_writing};
use crate::runner::inputs::{listed, Case};
use crate::runner::met::{AROUND, LIVE, PLAY};
use crate::runner::program::Program;
use crate::states::{picture, State};
use crate::write_cases::{FLI_REWRITE_FAMILIES, FLI_WRITE_FAMILIES, REWRITE_FAMILIES, SEARCH_FAMILIES, WRITE_FAMILIES};
use crate::wrong::{seen_in_players, seen_in_reading, seen_in_reels, seen_in_tiles, seen_in_trailers, seen_in_writing};
use crate::{cases, huge, players, reels, tiles, trailers};
use flic_boundary::FRAME_MOST;

pub fn reading() -> Program {
    Program {
        name: "reading",
        unit: "frames",
        base: 20_260,
        families: [listed(&cases::FAMILIES), listed(&cases::FLI_FAMILIES)].concat(),
        least: 800_000,
        rows: vec![&ReadCase::ROW],
        examples: of_reading(),
        seen_wrongs: seen_in_reading,
        besides: |_, _| {},
    }
}

pub fn writing() -> Program {
    Program {
        name: "writing",
        unit: "frames",
        base: 20_261,
        families: [
            listed(&WRITE_FAMILIES),
            listed(&REWRITE_FAMILIES),
            listed(&SEARCH_FAMILIES),
            listed(&FLI_WRITE_FAMILIES),
            listed(&FLI_REWRITE_FAMILIES),
        ]
        .concat(),
        least: 310_000,
        rows: vec![&WriteCase::ROW, &RewriteCase::ROW, &SearchCase::ROW],
        examples: of_writing(),
        seen_wrongs: seen_in_writing,
        besides: |library, base| {
            largest_pictures(library, base);
            most_turns(base);
        },
    }
}

pub fn reels() -> Program {
    Program {
        name: "reels",
        unit: "calls",
        base: 20_262,
        families: [listed(&reels::families::FAMILIES), listed(&reels::families::FLI_FAMILIES)].concat(),
        least: 350_000,
        rows: vec![
            &CheckCase::ROW,
            &OpenCase::ROW,
            &OpenFliCase::ROW,
            &MillisecondsCase::ROW,
            &JiffiesCase::ROW,
            &AddCase::ROW,
            &CloseCase::ROW,
            &PLAY,
        ],
        examples: of_reels(),
        seen_wrongs: seen_in_reels,
        besides: huge_reels,
    }
}

pub fn trailers() -> Program {
    Program {
        name: "trailers",
        unit: "calls",
        base: 20_263,
        families: [listed(&trailers::families::FAMILIES), listed(&trailers::families::FLI_FAMILIES)].concat(),
        least: 1_200_000,
        rows: vec![
            &CheckTrailerCase::ROW,
            &WriteTrailerCase::ROW,
            &ListCase::ROW,
            &HeaderCase::ROW,
            &StepCase::ROW,
            &AROUND,
        ],
        examples: of_trailers(),
        seen_wrongs: seen_in_trailers,
        besides: huge_trailers,
    }
}

pub fn players() -> Program {
    Program {
        name: "players",
        unit: "calls and lists",
        base: 20_265,
        families: [listed(&players::families::FAMILIES), listed(&players::families::FLI_FAMILIES)].concat(),
        least: 470_000,
        rows: vec![&StartCase::ROW, &TickCase::ROW, &ReplayCase::ROW, &LIVE],
        examples: of_players(),
        seen_wrongs: seen_in_players,
        besides: huge_reels_and_a_night,
    }
}

pub fn tiles() -> Program {
    Program {
        name: "tiles",
        unit: "calls",
        base: 20_266,
        families: listed(&tiles::families::FAMILIES),
        least: 250_000,
        rows: vec![&TileMapCase::ROW, &MarkedCase::ROW],
        examples: of_tiles(),
        seen_wrongs: seen_in_tiles,
        besides: |_, _| {},
    }
}

/// The largest picture and every colour change to noise: an output of FLIC_FRAME_MOST bytes holds the frame of each format.
fn largest_pictures(library: Comparer, base: u64) {
    Format::BOTH.into_iter().for_each(|format| largest_picture(library, format, base));
}

fn largest_picture(library: Comparer, format: Format, base: u64) {
    let mut rng = Rng::new(base);
    let pixels = (MAX_WIDTH * MAX_HEIGHT) as usize;
    let mut noise = || State { picture: rng.bytes(pixels), palette: rng.bytes(PALETTE_BYTES) };
    let (previous, next) = (noise(), noise());
    let out = vec![0xEE; FRAME_MOST];
    let (width, height) = (MAX_WIDTH, MAX_HEIGHT);
    let case = Case::Write(WriteCase { format: format.number(), width, height, previous, next, out });
    match library.case(&case, base) {
        Ok(agreed) if agreed.told.number == 0 => {
            let length = agreed.told.length();
            println!("writing: the largest picture of noise takes {length} of FLIC_FRAME_MOST bytes, {format:?}");
        }
        Ok(agreed) => {
            let refused = format!("writing: the largest picture is refused {}", agreed.told.number);
            fail(&refused, "raise FLIC_FRAME_MOST in include/flic.h, and the promise in docs/PROMISES.md with it")
        }
        Err(difference) => {
            let differs = format!("writing: the largest picture differs from the model: {}", difference.what);
            fail(&differs, "write this picture alone and follow the first byte that differs")
        }
    }
}

/// "at most 16 turns for each pixel of the row" (document 02, Req 03), of the library.
fn most_turns(base: u64) {
    let mut rng = Rng::new(base);
    let mut most = 0.0_f64;
    for pixels in 1..=MAX_WIDTH as usize {
        for _ in 0..20 {
            let turns = flic_boundary::search_row(&picture(&mut rng, pixels, 1)).turns;
            most = most.max(turns as f64 / pixels as f64);
        }
    }
    println!("writing: the search for a row took at most {most:.3} turns a pixel");
    if most > 16.0 {
        fail("writing: the search for a row takes more than 16 turns a pixel", "count the turns of plan_row anew")
    }
}

fn huge_reels(library: Comparer, _base: u64) {
    around_32_bits("reels", "calls on sizes", huge::reels(library.subject));
}

fn huge_trailers(library: Comparer, _base: u64) {
    around_32_bits("trailers", "files", huge::files(library.subject));
}

fn huge_reels_and_a_night(library: Comparer, base: u64) {
    around_32_bits("players", "calls on sizes and places", huge::players(library.subject));
    match night(library.subject, NIGHT, base) {
        Ok(kept) => {
            let Night { ticks, draws, drift, behind } = kept;
            let hours = NIGHT / 3_600_000;
            println!(
                "players: a night of {hours} hours through the roll-over: {ticks} ticks, {draws} frames drawn, every \
                 number the same live, in the replay and in the model; drift {drift} ms, {behind} ms behind the clock"
            );
            if !kept_time(&kept) {
                fail("players: a night's player doesn't keep time", "look at what becomes of the last draw time");
            }
        }
        Err(what) => fail(&format!("players: a night goes astray: {what}"), "make this tick alone"),
    }
}

fn around_32_bits(program: &str, what: &str, compared: Result<Option<usize>, String>) {
    match compared {
        Ok(Some(number)) => println!("{program}: {number} {what} around 32 bits compared"),
        Ok(None) => println!("{program}: {what} around 32 bits not tried: the system gives no four gigabytes of zeros"),
        Err(difference) => fail(
            &format!("{program}: a difference in {what} around 32 bits: {difference}"),
            "make this call alone, on zeros that hold one frame from offset 128 to the record's end",
        ),
    }
}

#[cfg(test)]
mod tests {
    use super::*;
    use crate::model::MODEL;
    use crate::runner::guards::GuardBytes;
    use crate::runner::met::Met;
    use crate::runner::wrongs::unseen;

    #[test]
    fn everything_wrong_is_seen() {
        for program in [reading(), writing(), reels(), trailers(), players(), tiles()] {
            assert_eq!(unseen(&(program.seen_wrongs)(7)), Vec::<&str>::new());
        }
    }

    #[test]
    fn the_model_agrees_with_itself_and_meets_every_answer() {
        let model = Comparer { subject: &MODEL, lender: &GuardBytes };
        for program in [reading(), writing(), reels(), trailers(), players(), tiles()] {
            let mut met = Met::nothing(&program.rows);
            for family in &program.families {
                for batch in 0..family.batches().div_ceil(20) {
                    let seed = family.seed_of(7, batch);
                    family.batch(seed, &mut |case| {
                        let agreed = model.case(&case, seed).expect("the model agrees with itself");
                        met.count(&case, &agreed);
                    });
                }
            }
            assert_eq!(met.missing(), Vec::<String>::new());
        }
    }
}
