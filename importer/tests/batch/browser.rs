//! `--html`: the page as a browser has it, with its script and its pictures.

use super::page::{expected, links, rows};
use super::{batch, check_summary, jobs, summary, text};
use std::fs::{self, File};
use std::path::{Path, PathBuf};
use std::process::{Command, Stdio};
use std::thread;
use std::time::{Duration, Instant};

/// A browser that hangs is to fail its test, and not to hold up the run.
const LIMIT: Duration = Duration::from_secs(60);

const BROWSERS: [&str; 3] = ["chromium", "chromium-browser", "google-chrome"];

/// What a browser run with these words prints; none if there is no such browser.
fn printed(browser: &str, words: &[String], to: &Path) -> Option<String> {
    let file = File::create(to).expect("a test may write its files");
    let mut child = Command::new(browser)
        .args(words)
        .stdin(Stdio::null())
        .stdout(file)
        .stderr(Stdio::null())
        .spawn()
        .ok()?;
    let start = Instant::now();
    loop {
        if let Some(status) = child.try_wait().expect("the browser's status") {
            return status.success().then(|| text(to));
        }
        if start.elapsed() > LIMIT {
            child.kill().expect("the browser has not ended");
            child.wait().expect("it is gone");
            panic!("{browser} did not end within {LIMIT:?}: {words:?}");
        }
        thread::sleep(Duration::from_millis(20));
    }
}

/// A browser that can be run without a window; where there is none, a line says so.
fn browser(folder: &Path) -> Option<&'static str> {
    let version = ["--version".to_string()];
    let to = folder.join("browser.version");
    let found = BROWSERS
        .into_iter()
        .find(|browser| printed(browser, &version, &to).is_some());
    if found.is_none() {
        eprintln!("left out, because this is not installed: {}", BROWSERS[0]);
    }
    found
}

/// A page as a browser has it once its script ran.
fn browsed(browser: &str, page: &Path) -> String {
    let profile = page.with_extension("profile");
    let words = [
        "--headless".to_string(),
        "--no-sandbox".to_string(),
        "--disable-gpu".to_string(),
        format!("--user-data-dir={}", profile.display()),
        "--dump-dom".to_string(),
        format!("file://{}", page.display()),
    ];
    let printed = printed(browser, &words, &page.with_extension("browsed"));
    printed.unwrap_or_else(|| panic!("{browser} failed: {words:?}"))
}

/// The page of the jobs, and a browser.
fn page_and_browser(test: &str) -> Option<(PathBuf, &'static str)> {
    let folder = jobs(test);
    let browser = browser(&folder)?;
    check_summary(batch(&folder, &["--html", "page", "."]), &summary(0));
    Some((folder.join("page/index.html"), browser))
}

#[test]
fn a_browser_shows_a_row_for_each_job() {
    let Some((path, browser)) = page_and_browser("browsed") else {
        return;
    };
    let page = browsed(browser, &path);
    assert_eq!(rows(&page), expected());
    // The script made a button of each heading.
    let buttons = page.matches("<button type=\"button\">").count();
    assert_eq!(buttons, expected()[0].len());
    assert!(!page.contains("aria-sort=\""), "{page}");
}

/// A column, how often its heading is clicked, how it is sorted then, and the jobs in that order.
type Sorted = (usize, usize, &'static str, [&'static str; 5]);

const COST: usize = 4;
const DRIFT: usize = 9;
const STATUS: usize = 1;

/// Numbers are sorted as numbers, empty fields come last, and equal ones keep their order.
const SORTED: [Sorted; 4] = [
    (
        COST,
        1,
        "ascending",
        ["past", "desk", "worked", "falling", "tight"],
    ),
    (
        COST,
        2,
        "descending",
        ["worked", "desk", "past", "falling", "tight"],
    ),
    (
        DRIFT,
        1,
        "ascending",
        ["past", "worked", "desk", "falling", "tight"],
    ),
    (
        STATUS,
        2,
        "descending",
        ["falling", "tight", "desk", "past", "worked"],
    ),
];

#[test]
fn a_click_on_a_heading_sorts_the_rows() {
    let Some((path, browser)) = page_and_browser("clicked") else {
        return;
    };
    for (column, clicks, way, names) in SORTED {
        let click = format!(
            "<script>for (let n = 0; n < {clicks}; n++) \
             document.querySelectorAll(\"#jobs thead button\")[{column}].click();</script>\n</body>"
        );
        let clicked = path.with_file_name(format!("clicked-{column}-{clicks}.html"));
        let page = text(&path).replace("</body>", &click);
        fs::write(&clicked, page).expect("a test may write its files");
        let page = browsed(browser, &clicked);
        let row = |name: &str| {
            let file = format!("./{name}.job");
            expected().into_iter().find(|row| row[0] == file)
        };
        let sorted: Vec<_> = names.into_iter().filter_map(row).collect();
        assert_eq!(rows(&page), sorted, "column {column}, clicks {clicks}");
        let heads: Vec<&str> = page.split("<th scope=\"col\"").skip(1).collect();
        let told = |head: &&str| head.contains("aria-sort=\"");
        assert_eq!(heads.iter().filter(|head| told(head)).count(), 1);
        assert!(heads[column].contains(&format!("aria-sort=\"{way}\"")));
    }
}

/// A page of the pictures that the table leads to, each noted as drawn once it is.
#[test]
fn a_browser_draws_the_pictures() {
    let Some((path, browser)) = page_and_browser("drawn") else {
        return;
    };
    let page = text(&path);
    let pictures = links(&page);
    assert_eq!(pictures.len(), 4);
    fs::write(path.with_file_name("broken.svg"), "<svg").expect("a test may write its files");
    let pictures = pictures.into_iter().chain(["broken.svg"]);
    let images: String = pictures
        .map(|file| format!("<img src=\"./{file}\"/>\n"))
        .collect();
    let note = "for (const image of document.images) \
                image.alt = image.naturalWidth > 300 ? \"drawn\" : \"broken\";";
    let page = format!(
        "<!DOCTYPE html>\n<body>\n{images}\
         <script>window.onload = () => {{ {note} }};</script>\n</body>\n"
    );
    let gallery = path.with_file_name("gallery.html");
    fs::write(&gallery, page).expect("a test may write its files");
    let gallery = browsed(browser, &gallery);
    assert_eq!(gallery.matches("alt=\"drawn\"").count(), 4, "{gallery}");
    assert_eq!(gallery.matches("alt=\"broken\"").count(), 1, "{gallery}");
}
