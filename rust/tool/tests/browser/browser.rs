//! A browser without a window that opens one page and gives what the page then holds.

use std::path::{Path, PathBuf};
use std::process::{self, Command};
use std::sync::atomic::{AtomicUsize, Ordering};
use std::{env, fs};

/// Opens one page after the other in a frame, and puts together what they say.
const OPENER: &str = "<!DOCTYPE html><meta charset=utf-8><body><pre id='said'></pre><script>
    const pages = [PAGES], all = [];
    function open() {
        const page = pages.shift();
        if (page === undefined) return document.getElementById('said').textContent = all.join('|');
        const frame = document.createElement('iframe');
        frame.srcdoc = page;
        frame.onload = () => {
            all.push(frame.contentDocument.getElementById('said').textContent);
            frame.remove();
            open();
        };
        document.body.append(frame);
    }
    open();
</script>";

/// A directory for pages, gone when the test is over.
pub struct Pages {
    directory: PathBuf,
}

impl Pages {
    pub fn new() -> Pages {
        static NUMBER: AtomicUsize = AtomicUsize::new(0);
        let name = format!("flic-pages-{}-{}", process::id(), NUMBER.fetch_add(1, Ordering::Relaxed));
        let directory = env::temp_dir().join(name);
        fs::create_dir(&directory).unwrap();
        Pages { directory }
    }

    /// The page that the tool makes of a reel.
    pub fn page(&self, reel: &Path) -> String {
        let out = self.directory.join("page.html");
        let tool = Command::new(env!("CARGO_BIN_EXE_flic")).arg("page").args([reel, &out]).output().unwrap();
        assert!(tool.status.success(), "{}: {}", reel.display(), String::from_utf8_lossy(&tool.stderr));
        fs::read_to_string(out).unwrap()
    }

    pub fn write(&self, name: &str, bytes: &[u8]) -> PathBuf {
        let file = self.directory.join(name);
        fs::write(&file, bytes).unwrap();
        file
    }

    /// What the element `said` of each page holds, once it is loaded; all are opened in frames of one page.
    pub fn said_of_all(&self, pages: &[String]) -> Vec<String> {
        let texts: Vec<String> = pages.iter().map(|page| format!("{page:?}").replace("</", "<\\/")).collect();
        let opener = OPENER.replace("PAGES", &texts.join(",\n"));
        let said = self.said(&opener, 10_000);
        said.split('|').map(str::to_string).collect()
    }

    /// What the element `said` of a page holds after so many milliseconds of the page's own time.
    pub fn said(&self, page: &str, milliseconds: u32) -> String {
        let file = self.write("opened.html", page.as_bytes());
        let output = Command::new("chromium")
            .args(["--headless", "--no-sandbox", "--disable-gpu", "--disable-dev-shm-usage", "--dump-dom"])
            .arg(format!("--virtual-time-budget={milliseconds}"))
            .arg(format!("--user-data-dir={}", self.directory.join("profile").display()))
            .arg(format!("file://{}", file.display()))
            .output()
            .expect("chromium is on the path");
        let dom = String::from_utf8(output.stdout).unwrap();
        let held = dom.split_once("<pre id=\"said\">").and_then(|(_, behind)| behind.split_once("</pre>"));
        match held {
            Some((held, _)) => held.to_string(),
            None => panic!("the page said nothing:\n{}", String::from_utf8_lossy(&output.stderr)),
        }
    }
}

impl Drop for Pages {
    fn drop(&mut self) {
        let _ = fs::remove_dir_all(&self.directory);
    }
}
