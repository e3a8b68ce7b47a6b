//! `flic info`: a file's header, and what its bytes are spent on.

use super::check::{checked_behind, JSON};
use super::{tiles, Command};
use crate::tool::arguments::Arguments;
use crate::tool::failure::{wrong, Failure, Outcome};
use crate::tool::files;
use crate::tool::json::Json;
use crate::tool::name::Shown;
use crate::tool::progress::Progress;
use crate::tool::refused::Told;
use crate::tool::say::say;
use crate::tool::shares::{shares, Share};
use crate::tool::stored::{date, Rest, StoredHeader};
use flic::CheckedReel;
use std::path::Path;

pub const COMMAND: Command = Command {
    name: "info",
    usage: "FILE [--json]",
    summary: "shows the header, and the bytes of each kind of chunk",
    about:
        "Prints the format and the fields of the file header, then how many chunks of each kind there are and how many
bytes they take. The bytes sum up to the file's. The delay of an FLI is shown in jiffies of 1/70 second, as it is
stored, and in milliseconds, as it is played. The last line says what share of the tiles of a picture a frame redraws.
Of a refused file the header is shown, if it is whole, and why, with exit status 1.",
    options: &[JSON],
    run,
};

fn run(arguments: Arguments) -> Outcome {
    let is_json = arguments.has(JSON.name);
    let [file] = arguments.exactly(["FILE"])?;
    let progress = Progress::new(format!("checking {}", file.shown()), 0);
    let bytes = files::read(&file)?;
    let reel = CheckedReel::new(&bytes);
    drop(progress);
    let fault = match &reel {
        Ok(_) => checked_behind(&bytes).err(),
        Err(why) => Some(*why),
    };
    let told = fault.map(|why| Told::of(&bytes, why));
    let header = StoredHeader::of(&bytes).filter(|header| header.format().is_some());
    let reel = reel.ok();
    let shares = reel.as_ref().map(|reel| shares(reel.frame_chunks(), reel.header().size as usize, &bytes));
    if is_json {
        say(&format!("{}\n", value(&file, told.as_ref(), header, shares.unwrap_or_default())))?;
        return told.map_or(Ok(()), |_| Err(Failure::Said));
    }
    let header = header.map_or(String::new(), |header| fields(&header));
    let shares = shares.map_or(String::new(), |shares| table(&shares, bytes.len()));
    let redrawn =
        reel.map_or(String::new(), |reel| format!("\na frame redraws {}: see flic tiles\n", tiles::share(&reel)));
    say(&(header + &shares + &redrawn))?;
    match told {
        Some(told) => wrong(format!("{}: {told}", file.shown())),
        None => Ok(()),
    }
}

fn value(file: &Path, told: Option<&Told>, header: Option<StoredHeader>, shares: Vec<Share>) -> Json {
    Json::Object(vec![
        ("file", Json::name(file)),
        ("ok", Json::Bool(told.is_none())),
        ("refusal", Json::refusal(told)),
        ("header", header.map_or(Json::Null, |header| header_value(&header))),
        ("shares", Json::List(shares.iter().map(share_value).collect())),
    ])
}

/// What only the other format has is null.
fn header_value(header: &StoredHeader) -> Json {
    let (jiffies, speed, made, offsets) = match header.rest {
        Rest::Flc { speed, made, oframe1, oframe2 } => (None, speed, Some(made), Some((oframe1, oframe2))),
        Rest::Fli { delay, .. } => (Some(delay), delay.in_milliseconds(), None, None),
    };
    Json::Object(vec![
        ("format", Json::format(header.format())),
        ("size", Json::number(header.size)),
        ("magic", Json::number(header.magic)),
        ("frames", Json::number(header.frames)),
        ("width", Json::number(header.width)),
        ("height", Json::number(header.height)),
        ("depth", Json::number(header.depth)),
        ("flags", Json::number(header.flags)),
        ("jiffies", Json::maybe(jiffies.map(|jiffies| jiffies.0))),
        ("speed", Json::number(speed.0)),
        ("created", Json::maybe(made.map(|made| made.created))),
        ("creator", Json::maybe(made.map(|made| made.creator))),
        ("updated", Json::maybe(made.map(|made| made.updated))),
        ("updater", Json::maybe(made.map(|made| made.updater))),
        ("aspect_x", Json::maybe(made.map(|made| made.aspect_x))),
        ("aspect_y", Json::maybe(made.map(|made| made.aspect_y))),
        ("oframe1", Json::maybe(offsets.map(|offsets| offsets.0))),
        ("oframe2", Json::maybe(offsets.map(|offsets| offsets.1))),
    ])
}

fn share_value(share: &Share) -> Json {
    Json::Object(vec![
        ("name", Json::text(share.what.name())),
        ("count", Json::number(share.count)),
        ("bytes", Json::number(share.bytes)),
    ])
}

fn fields(header: &StoredHeader) -> String {
    let mut rows = vec![
        ("format", header.format().map_or(String::new(), |format| format.to_string())),
        ("size", format!("{} bytes", header.size)),
        ("magic", format!("{:04X}", header.magic)),
        ("frames", format!("{} and the ring", header.frames)),
        ("width", header.width.to_string()),
        ("height", header.height.to_string()),
        ("depth", header.depth.to_string()),
    ];
    match header.rest {
        Rest::Flc { speed, made, oframe1, oframe2 } => {
            let closed = if header.is_closed() { "closed" } else { "not closed" };
            rows.extend([
                ("flags", format!("{} ({closed})", header.flags)),
                ("speed", format!("{speed} a frame")),
                ("created", date(made.created)),
                ("creator", format!("{:08X}", made.creator)),
                ("updated", date(made.updated)),
                ("updater", format!("{:08X}", made.updater)),
                ("aspect", format!("{}:{}", made.aspect_x, made.aspect_y)),
                ("oframe1", oframe1.to_string()),
                ("oframe2", oframe2.to_string()),
            ]);
        }
        Rest::Fli { delay, .. } => {
            rows.extend([
                ("flags", header.flags.to_string()),
                ("delay", format!("{delay} a frame")),
                ("speed", format!("{} a frame", delay.in_milliseconds())),
            ]);
        }
    }
    rows.iter().map(|(name, value)| format!("{name:8} {value}\n")).collect()
}

fn table(shares: &[Share], whole: usize) -> String {
    let mut text = format!("\n{:34}{:>8}{:>11}{:>8}\n", "", "count", "bytes", "share");
    for share in shares {
        let tenths = (share.bytes as u64 * 1000 + whole as u64 / 2) / whole as u64;
        let percent = format!("{}.{}%", tenths / 10, tenths % 10);
        text += &format!("{:34}{:>8}{:>11}{percent:>8}\n", share.what.name(), share.count, share.bytes);
    }
    text + &format!("{:34}{:>8}{whole:>11}{:>8}\n", "the file", "", "100.0%")
}

#[cfg(test)]
mod tests {
    use super::*;
    use crate::tool::shares::What;

    #[test]
    fn shares_are_rounded() {
        let text = table(&[Share { what: What::Trailer, count: 1, bytes: 2 }], 3);
        assert!(text.contains("66.7%"), "{text}");
    }
}
