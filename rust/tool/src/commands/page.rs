//! `flic page`: a reel as a page that plays it in a browser.

use super::Command;
use crate::tool::arguments::{Arguments, Opt};
use crate::tool::failure::Outcome;
use crate::tool::name::Shown;
use crate::tool::numbers::counted;
use crate::tool::progress::Progress;
use crate::tool::target::say_beside;
use crate::tool::{files, outputs, refused};
use flic::{write_frame, CheckedReel, Format, State};
use std::path::Path;

pub const COMMAND: Command = Command {
    name: "page",
    usage: "FILE OUT.html [--force]",
    summary: "makes a page that plays the reel in any browser",
    about: "\
Writes one HTML file that plays the reel lap after lap at its own speed, with the lap and the frame's number, and with
buttons and keys to pause and to step: for whoever looks at a board's reel and has no tool. It fetches nothing. A file
that is there already is replaced if it is such a page.",
    options: &[Opt { name: "--force", value: None, about: "replaces OUT.html, whatever it is" }],
    run,
};

/// Stands in every page, so that it is known again.
const MARK: &str = "content=\"flic page\"";
const PAGE: &str = include_str!("page.html");

fn run(arguments: Arguments) -> Outcome {
    let is_forced = arguments.has("--force");
    let [file, out] = arguments.exactly(["FILE", "OUT.html"])?;
    outputs::may_be_written(&out, MARK, is_forced)?;
    let bytes = files::read_reel(&file)?;
    let reel = refused::checked(&file, &bytes)?;

    let progress = Progress::new(format!("making {}", out.shown()), reel.frame_chunks().len());
    let frames = refused::accepted(&file, &bytes, frames(&reel, &progress))?;
    drop(progress);
    let page = page(&file, &reel, &frames);
    files::write(&out, page.as_bytes())?;
    let name = files::target_name(&out);
    say_beside(
        &out,
        &format!(
            "{name}: {} and the ring, {}",
            counted(reel.header().frames.into(), "frame"),
            counted(page.len(), "byte")
        ),
    )
}

/// Every frame and the ring in house form of an FLC, which has few kinds: the page reads no other.
fn frames(reel: &CheckedReel, progress: &Progress) -> flic::Result<Vec<Vec<u8>>> {
    let (mut laps, mut before) = (reel.laps(), State::blank(reel.size()));
    let mut frames = Vec::new();
    for _ in reel.frame_chunks() {
        let shown = laps.advance().state;
        frames.push(write_frame(Format::Flc, &before, shown)?);
        before.clone_from(shown);
        progress.step();
    }
    Ok(frames)
}

fn page(file: &Path, reel: &CheckedReel, frames: &[Vec<u8>]) -> String {
    let name = file.file_name().unwrap_or(file.as_os_str()).to_string_lossy();
    let header = reel.header();
    let frames: Vec<String> = frames.iter().map(|frame| format!("\"{}\"", base64(frame))).collect();
    let (width, height, speed) = (header.width, header.height, header.speed.0);
    let parts = [
        ("{{name}}", escaped(&name)),
        ("{{width}}", width.to_string()),
        ("{{height}}", height.to_string()),
        (
            "{{about}}",
            escaped(&format!(
                "{name}: {} and the ring, {speed} ms each",
                counted(reel.header().frames.into(), "frame")
            )),
        ),
        (
            "{{reel}}",
            format!(
                "{{\"width\":{width},\"height\":{height},\"speed\":{speed},\"frames\":[\n{}\n]}}",
                frames.join(",\n")
            ),
        ),
    ];
    // The template's parts stand in this order, so that nothing that was put in is looked at again.
    let (mut page, mut rest) = (String::new(), PAGE);
    for (part, text) in &parts {
        let (front, behind) = rest.split_once(part).expect("the page has its parts in their order");
        page += front;
        page += text;
        rest = behind;
    }
    page + rest
}

fn escaped(text: &str) -> String {
    text.replace('&', "&amp;").replace('<', "&lt;").replace('>', "&gt;").replace('"', "&quot;")
}

fn base64(bytes: &[u8]) -> String {
    const LETTERS: &[u8; 64] = b"ABCDEFGHIJKLMNOPQRSTUVWXYZabcdefghijklmnopqrstuvwxyz0123456789+/";
    let mut text = String::with_capacity(bytes.len().div_ceil(3) * 4);
    for three in bytes.chunks(3) {
        let word = (0..3).fold(0, |word, at| word << 8 | u32::from(three.get(at).copied().unwrap_or(0)));
        for at in 0..4 {
            let letter = LETTERS[(word >> (18 - 6 * at) & 63) as usize];
            text.push(if at <= three.len() { letter.into() } else { '=' });
        }
    }
    text
}

#[cfg(test)]
mod tests {
    use super::*;

    #[test]
    fn base64_of_every_length() {
        let pairs: [(&[u8], &str); 6] = [
            (b"", ""),
            (b"f", "Zg=="),
            (b"fo", "Zm8="),
            (b"foo", "Zm9v"),
            (b"\xFF\xEF\xBE", "/+++"),
            (b"foobar", "Zm9vYmFy"),
        ];
        for (bytes, text) in pairs {
            assert_eq!(base64(bytes), text);
        }
    }

    #[test]
    fn names_cannot_write_into_the_page() {
        assert_eq!(escaped("<b>&\"x\""), "&lt;b&gt;&amp;&quot;x&quot;");
        assert_eq!(PAGE.matches("{{").count(), 5);
    }
}
