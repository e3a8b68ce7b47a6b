//! `flic list`: the listing of a file's chunks.

use super::check::{checked, JSON};
use super::Command;
use crate::tool::arguments::Arguments;
use crate::tool::failure::{wrong, Failure, Outcome};
use crate::tool::files::Source;
use crate::tool::json::Json;
use crate::tool::name::Shown;
use crate::tool::progress::Progress;
use crate::tool::refused::Told;
use crate::tool::salvage::{Found, Salvage};
use crate::tool::say::say;
use crate::tool::stored::{
    chunks, format_of, kind_name, sub_chunks, StoredChunk, StoredHeader, FRAME_HEADER, FRAME_KIND,
};
use flic::{check_trailer, Format, Refusal, Refused, FILE_HEADER};

pub const COMMAND: Command = Command {
    name: "list",
    usage: "FILE [--json]",
    summary: "lists the chunks, one line each",
    about: "\
Prints 'flic WIDTH HEIGHT FRAMES', then a line for each chunk up to the ring with its depth, offset, kind, size and
name, as far as chunks are found. The last line is 'ok' if the check accepts the file, and else 'refused NUMBER
OFFSET', with exit status 1. A file may be of any size. Only an FLC is listed: of an FLI flic info says what it holds,
and flic convert makes an FLC of it.",
    options: &[JSON],
    run,
};

fn run(arguments: Arguments) -> Outcome {
    let is_json = arguments.has(JSON.name);
    let [file] = arguments.exactly(["FILE"])?;
    let progress = Progress::new(format!("checking {}", file.shown()), 0);
    let mut source = Source::open(&file)?;
    source.read_reel()?;
    let why = not_listed(&source.bytes).or_else(|| checked(&source.bytes).err());
    if why.is_some() {
        source.read_on()?;
    }
    drop(progress);
    let told = why.map(|why| Told::of(&source.bytes, why));
    let header = StoredHeader::of(&source.bytes);
    let format = format_of(&source.bytes);
    let salvage = Salvage::of(&source.bytes).ok().filter(|salvage| salvage.format == Format::Flc);
    let rows = salvage.map_or(Vec::new(), |salvage| rows(&salvage, &source.bytes));
    let header = header.filter(|_| !rows.is_empty());
    if is_json {
        let object = vec![
            ("file", Json::name(&file)),
            ("format", Json::format(format)),
            ("ok", Json::Bool(told.is_none())),
            ("refusal", Json::refusal(told.as_ref())),
            ("width", header.map_or(Json::Null, |header| Json::number(header.width))),
            ("height", header.map_or(Json::Null, |header| Json::number(header.height))),
            ("frames", header.map_or(Json::Null, |header| Json::number(header.frames))),
            ("chunks", Json::List(rows.iter().map(Row::value).collect())),
        ];
        say(&format!("{}\n", Json::Object(object)))?;
        return told.map_or(Ok(()), |_| Err(Failure::Said));
    }
    if let Some(header) = header {
        say(&format!("flic {} {} {}\n", header.width, header.height, header.frames))?;
    }
    say(&rows.iter().map(Row::line).collect::<String>())?;
    match told {
        None => say("ok\n"),
        Some(told) => {
            say(&format!("refused {} {}\n", told.refused.refusal.number(), told.refused.place))?;
            wrong(format!("{}: {told}", file.shown()))
        }
    }
}

/// The refusal of what the codec lists nothing of, an FLI among it.
fn not_listed(bytes: &[u8]) -> Option<Refused> {
    check_trailer(bytes).err().filter(|why| why.refusal == Refusal::WrongType)
}

/// A chunk of the listing.
struct Row {
    depth: usize,
    offset: usize,
    kind: u16,
    size: usize,
    name: String,
}

impl Row {
    fn line(&self) -> String {
        format!("{} {} {} {} {}\n", self.depth, self.offset, self.kind, self.size, self.name)
    }

    fn value(&self) -> Json {
        Json::Object(vec![
            ("depth", Json::number(self.depth)),
            ("offset", Json::number(self.offset)),
            ("kind", Json::number(self.kind)),
            ("size", Json::number(self.size)),
            ("name", Json::text(&self.name)),
        ])
    }
}

/// The chunks up to the ring: frames where the codec finds them, what they hold, and what stands between them.
fn rows(salvage: &Salvage, bytes: &[u8]) -> Vec<Row> {
    let (mut rows, mut at) = (Vec::new(), FILE_HEADER);
    let wanted = salvage.promised.map_or(salvage.found.len(), |frames| frames + 1);
    for (number, Found { chunk: frame, lost }) in (1..).zip(salvage.found.iter().take(wanted)) {
        rows.extend(back_to_back(0, at, chunks(&bytes[at..frame.offset])));
        at = frame.end();
        if lost.is_some() {
            continue;
        }
        let name = if salvage.promised.is_some_and(|frames| number > frames) {
            "ring".to_string()
        } else {
            format!("frame {number}")
        };
        rows.push(Row { depth: 0, offset: frame.offset, kind: FRAME_KIND, size: frame.size, name });
        let held = sub_chunks(&bytes[frame.offset..frame.end()]);
        rows.extend(back_to_back(1, frame.offset + FRAME_HEADER, held));
    }
    if salvage.found.len() < wanted {
        let last = chunks(&bytes[at..salvage.reel_end()]).take_while(|chunk| chunk.kind != FRAME_KIND);
        rows.extend(back_to_back(0, at, last));
    }
    rows
}

/// Chunks of which the first stands at this offset.
fn back_to_back(
    depth: usize,
    mut offset: usize,
    chunks: impl Iterator<Item = StoredChunk>,
) -> impl Iterator<Item = Row> {
    chunks.map(move |StoredChunk { kind, size }| {
        let row = Row { depth, offset, kind, size, name: kind_name(kind).to_string() };
        offset += size;
        row
    })
}
