//! The two formats as a person meets them: how files are named, and for how long a frame shows.

use super::failure::{wrong, Outcome};
use super::name::Shown;
use flic::{Format, Header, Jiffies, Milliseconds};
use std::path::Path;

/// How the names of reels end, in small or large letters.
const ENDS: [(&str, Format); 2] = [("flc", Format::Flc), ("fli", Format::Fli)];

/// The format that a file's name stands for, if it does.
pub fn named(file: &Path) -> Option<Format> {
    let end = file.extension()?;
    ENDS.iter().find(|(known, _)| end.eq_ignore_ascii_case(known)).map(|(_, format)| *format)
}

/// The ending of a format's names, with its dot.
pub fn ending(format: Format) -> String {
    format!(".{}", format.to_string().to_lowercase())
}

/// Refuses to write the reel of a file anew, in its own format, under a name that stands for the other.
pub fn may_be_named(out: &Path, file: &Path, format: Format) -> Outcome {
    match named(out) {
        Some(other) if other != format => wrong(format!(
            "{}: is a name for an {other}, and {} is an {format}: give one that ends in {}, or make an {other} of it with \
             flic convert",
            out.shown(),
            file.shown(),
            ending(format)
        )),
        _ => Ok(()),
    }
}

/// For how long a frame shows: `250 ms`, of an FLI `18 jiffies, 257 ms`.
pub fn delay(header: &Header) -> String {
    match header.jiffies() {
        Some(jiffies) => format!("{jiffies}, {}", header.speed),
        None => header.speed.to_string(),
    }
}

/// What became of a delay in milliseconds.
pub fn made_jiffies(from: Milliseconds, to: Jiffies) -> String {
    let end = match are_one_time(to, from) {
        true => "exactly".to_string(),
        false => format!("rounded up: {}", to.in_milliseconds()),
    };
    format!("{from} a frame become {to}, {end}")
}

/// What became of a delay in jiffies.
pub fn made_milliseconds(from: Jiffies, to: Milliseconds) -> String {
    let end = if are_one_time(from, to) { "exactly" } else { "rounded down" };
    format!("{from} a frame become {to}, {end}")
}

/// Whether both are one time: neither formula has rounded.
pub fn are_one_time(jiffies: Jiffies, milliseconds: Milliseconds) -> bool {
    1000 * u64::from(jiffies.0) == 70 * u64::from(milliseconds.0)
}

#[cfg(test)]
mod tests {
    use super::*;

    #[test]
    fn names_of_both_formats() {
        let of = |name: &str| named(Path::new(name));
        assert_eq!(
            (of("a/b.flc"), of("A.FLI"), of("b.Fli")),
            (Some(Format::Flc), Some(Format::Fli), Some(Format::Fli))
        );
        assert_eq!((of("-"), of("flc"), of(".fli"), of("a.flc.gz")), (None, None, None, None));
        assert_eq!((ending(Format::Flc), ending(Format::Fli)), (".flc".to_string(), ".fli".to_string()));
    }

    #[test]
    fn only_what_is_one_time_is_exact() {
        let exact = |jiffies, milliseconds| are_one_time(Jiffies(jiffies), Milliseconds(milliseconds));
        assert!(exact(0, 0) && exact(7, 100) && exact(70, 1_000) && exact(65_534, 936_200));
        assert!(!exact(18, 257) && !exact(18, 250) && !exact(7, 99) && !exact(8, 100) && !exact(65_535, 936_214));
    }
}
