//! What came of tasks as a page: a table that can be sorted, with a picture of each job. The page is
//! whole by itself, and also without its script.

mod link;

use super::done::Done;
use super::failure::{shown, Failure};
use super::fields::{self, COLUMNS};
use super::summary::Summary;
use super::task::{with_end, Task};
use crate::draw::escaped;
use crate::{RefusalKind, REFUSALS};
use link::link;
use std::collections::HashSet;
use std::ffi::OsString;
use std::path::Path;

const STYLE: &str = include_str!("page.css");
const SCRIPT: &str = include_str!("page.js");

/// Nothing is loaded from anywhere but what stands in the page itself.
const POLICY: &str =
    "default-src 'none'; style-src 'unsafe-inline'; script-src 'unsafe-inline'; base-uri 'none'";

/// The columns whose fields are words; in the others they are numbers.
const WORDS: [&str; 3] = ["file", "status", "placement"];

/// The tasks with a picture for each in a folder: `NAME.svg`, and where jobs of several folders have
/// the same name, `NAME-2.svg` and so on.
pub fn with_pictures(tasks: Vec<Task>, folder: &Path) -> Vec<Task> {
    let mut taken = HashSet::new();
    let mut pictured = |mut task: Task| {
        let name = task.name();
        let numbered = (2..).map(|number: u32| {
            let mut name = name.clone();
            name.push(format!("-{number}"));
            name
        });
        let mut names = std::iter::once(name.clone()).chain(numbered);
        let free = names.find(|name: &OsString| taken.insert(name.clone()));
        let file = with_end(&free.unwrap_or(name), "svg");
        task.picture = Some(folder.join(file));
        task
    };
    tasks.into_iter().map(&mut pictured).collect()
}

/// The page, to stand in the folder of the pictures.
pub fn page(tasks: &[Task], results: &[Result<Done, Failure>]) -> String {
    let summary = Summary::of(results);
    let title = format!(
        "refine batch: {} of {} jobs answered",
        summary.answered, summary.jobs
    );
    let rows = tasks.iter().zip(results);
    let rows: String = rows.map(|(task, result)| row(task, result)).collect();
    format!(
        "<!DOCTYPE html>\n<html lang=\"en\">\n<head>\n<meta charset=\"utf-8\"/>\n\
         <meta http-equiv=\"Content-Security-Policy\" content=\"{POLICY}\"/>\n\
         <meta name=\"viewport\" content=\"width=device-width, initial-scale=1\"/>\n\
         <meta name=\"color-scheme\" content=\"light dark\"/>\n\
         <title>{title}</title>\n<style>\n{STYLE}</style>\n</head>\n<body>\n<main>\n\
         <h1>{title}</h1>\n{}\
         <div class=\"wide\" role=\"region\" aria-labelledby=\"about\" tabindex=\"0\">\n\
         <table id=\"jobs\">\n\
         <caption id=\"about\">What came of each job; its name leads to its picture</caption>\n\
         <thead>\n<tr>{}</tr>\n</thead>\n<tbody>\n{rows}</tbody>\n</table>\n</div>\n</main>\n\
         <script>\n{SCRIPT}</script>\n</body>\n</html>\n",
        said(&summary),
        heading(),
    )
}

/// What came of all jobs, in words.
fn said(summary: &Summary) -> String {
    let mut items = vec![format!("answered: {}", summary.answered)];
    for (number, count) in &summary.refused {
        let entry = REFUSALS.iter().find(|refusal| refusal.number == *number);
        let meaning = entry.map_or("unknown", |refusal| refusal.meaning);
        items.push(format!("refused with {number} ({meaning}): {count}"));
    }
    if summary.failed > 0 {
        items.push(format!("failed: {}", summary.failed));
    }
    let [legal, broken, refused] = summary.placements;
    if legal + broken + refused > 0 {
        let counts = format!("{legal} legal, {broken} broken, {refused} refused");
        items.push(format!("placements beside the jobs: {counts}"));
        items.push(format!("cost saved: {}", summary.saved));
    }
    let item = |words: &String| format!("<li>{}</li>\n", escaped(words));
    let items: String = items.iter().map(item).collect();
    format!("<ul>\n{items}</ul>\n")
}

fn heading() -> String {
    let column = |name: &&str| format!("<th scope=\"col\"{}>{name}</th>", class(name));
    COLUMNS.iter().map(column).collect()
}

/// Numbers stand on the right.
fn class(column: &str) -> &'static str {
    match WORDS.contains(&column) {
        true => "",
        false => " class=\"number\"",
    }
}

fn row(task: &Task, result: &Result<Done, Failure>) -> String {
    let name = escaped(&shown(task.job.as_os_str()));
    let picture = task.picture.as_ref().filter(|_| is_drawn(result));
    let name = match picture.and_then(|picture| picture.file_name()) {
        Some(file) => format!("<a href=\"{}\">{name}</a>", link(file)),
        None => name,
    };
    let field = |(column, field): (&&str, String)| {
        let title = title(column, result);
        format!("<td{}{title}>{}</td>", class(column), escaped(&field))
    };
    let columns = COLUMNS.iter().skip(1);
    let fields: String = columns.zip(fields::of(result)).map(field).collect();
    format!("<tr><th scope=\"row\">{name}</th>{fields}</tr>\n")
}

/// A job that Read takes has a picture.
fn is_drawn(result: &Result<Done, Failure>) -> bool {
    let placed = result.as_ref().map(|done| done.placed);
    placed.is_ok_and(|placed| match placed {
        Ok(_) => true,
        Err(refused) => refused.kind() == RefusalKind::NoLegal,
    })
}

/// What is shown to who points at a field: what a refusal's number means, and why a job failed.
fn title(column: &str, result: &Result<Done, Failure>) -> String {
    let words = match (column, result) {
        ("refusal", Ok(done)) => done.placed.err().map(|refused| refused.reason().into()),
        ("status", Err(failure)) => Some(failure.to_string()),
        _ => None,
    };
    words.map_or_else(String::new, |words| {
        format!(" title=\"{}\"", escaped(&words))
    })
}
