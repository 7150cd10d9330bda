//! `--html`: a page with a row for each job, and a picture of each.

use super::{batch, check_summary, counts, folder, jobs, names, put, summary, text};
use super::{DESK, DESK_PLACEMENT, PAST, WORKED};
use std::fs;

/// A row's cells, without their tags.
pub type Row = Vec<String>;

/// The rows of the table's body, of a page as it was written or as a browser has it.
pub fn rows(page: &str) -> Vec<Row> {
    let (_, body) = page.split_once("<tbody>").expect("a table's body");
    let (body, _) = body.split_once("</tbody>").expect("its end");
    let rows = body.split("</tr>").filter(|row| row.contains("<tr>"));
    rows.map(cells).collect()
}

fn cells(row: &str) -> Row {
    let ends = row.replace("</th>", "</td>");
    let cells = ends.split("</td>").filter(|cell| cell.contains("<t"));
    cells.map(without_tags).collect()
}

fn without_tags(cell: &str) -> String {
    let parts = cell.split('<').skip(1);
    let texts = parts.filter_map(|part| part.split_once('>'));
    texts
        .map(|(_, text)| text)
        .collect::<String>()
        .trim()
        .into()
}

/// The pictures that the page leads to.
pub fn links(page: &str) -> Vec<&str> {
    let links = page.split("<a href=\"./").skip(1);
    links.filter_map(|link| link.split('"').next()).collect()
}

/// The rows that the page of the jobs is to have.
pub fn expected() -> Vec<Row> {
    let lines = [
        "./desk.job,answered,,,12,0,2,1,0,50,legal,,,,300,288,",
        "./falling.job,refused,4,3,,,,,,,,,,,,,",
        "./past.job,answered,,,7,0,1,0,0,-100,,,,,,,",
        "./tight.job,refused,8,0,,,,,,,,,,,,,",
        "./worked.job,answered,,,100,0,0,1,0,0,,,,,,,",
    ];
    let row = |line: &&str| line.split(',').map(String::from).collect();
    lines.iter().map(row).collect()
}

/// Elements that have no end tag in a page.
const ALONE: [&str; 1] = ["meta"];

/// Checks that each element is closed by its own end tag, and that quotes are closed.
fn check_well_formed(page: &str) {
    let mut open: Vec<&str> = Vec::new();
    let rest = page.strip_prefix("<!DOCTYPE html>").expect("a page");
    for part in rest.split('<').skip(1) {
        let (tag, _) = part.split_once('>').expect(part);
        let name = tag.split([' ', '/']).find(|name| !name.is_empty());
        let name = name.expect(part);
        if tag.starts_with('/') {
            assert_eq!(open.pop(), Some(name), "{part}");
        } else if ALONE.contains(&name) {
            assert!(tag.ends_with('/'), "{part}");
        } else {
            assert!(tag.matches('"').count() % 2 == 0, "{part}");
            open.push(name);
        }
    }
    assert_eq!(open, [""; 0]);
}

#[test]
fn the_page_has_a_row_for_each_job() {
    let folder = jobs("page");
    check_summary(batch(&folder, &["--html", "page", "."]), &summary(0));
    let page = text(folder.join("page/index.html"));
    check_well_formed(&page);
    assert_eq!(rows(&page), expected());
    let heading = page.matches("<th scope=\"col\"").count();
    assert_eq!(heading, expected()[0].len());
}

#[test]
fn nothing_in_the_page_is_from_elsewhere() {
    let folder = jobs("nothing_else");
    check_summary(batch(&folder, &["--html", "page", "."]), &summary(0));
    let page = text(folder.join("page/index.html"));
    for word in ["http:", "https:", "//", "src=", "@import", "url("] {
        // A line of the script may be a comment.
        let lines = page.lines().filter(|line| !line.trim().starts_with("// "));
        let found: Vec<&str> = lines.filter(|line| line.contains(word)).collect();
        assert_eq!(found, [""; 0], "{word}");
    }
    assert!(page.contains("content=\"default-src 'none';"), "{page}");
}

#[test]
fn each_job_that_is_accepted_has_its_picture() {
    let folder = jobs("pictures");
    put(&folder, "tight.placement", "0,0\n");
    let (output, notes, status) = batch(&folder, &["--html", "new/page", "."]);
    assert_eq!((&*notes, status), ("", Some(0)));
    assert!(
        counts(&output).ends_with(" placements,1,0,1 saved,288"),
        "{output}"
    );
    let pictures = ["desk.svg", "past.svg", "tight.svg", "worked.svg"];
    let files = [&pictures[..1], &["index.html"], &pictures[1..]].concat();
    assert_eq!(names(&folder.join("new/page")), files);
    let page = text(folder.join("new/page/index.html"));
    assert_eq!(links(&page), pictures);
    let desk = text(folder.join("new/page/desk.svg"));
    for words in ["placement: legal, cost 300", "cheapest: legal, cost 12,"] {
        assert!(desk.contains(words), "{words}");
    }
    // The placement beside it is refused, so its given rows are drawn.
    let tight = text(folder.join("new/page/tight.svg"));
    for words in [
        "given rows: not legal",
        "cheapest: no legal placement exists",
    ] {
        assert!(tight.contains(words), "{words}");
    }
}

#[test]
fn pictures_of_jobs_with_one_name_have_names_of_their_own() {
    let folder = folder("same_names");
    for name in ["a", "b", "c"] {
        fs::create_dir(folder.join(name)).expect("a folder");
    }
    put(&folder, "a/x.job", DESK);
    put(&folder, "a/x.placement", DESK_PLACEMENT);
    put(&folder, "b/x.job", PAST);
    put(&folder, "c/x-2.job", WORKED);
    let (_, notes, status) = batch(&folder, &["--html", "page", "a", "b", "c"]);
    assert_eq!((&*notes, status), ("", Some(0)));
    let files = ["index.html", "x-2-2.svg", "x-2.svg", "x.svg"];
    assert_eq!(names(&folder.join("page")), files);
    let cheapest = |file: &str| {
        let picture = text(folder.join("page").join(file));
        let (_, words) = picture.split_once("cheapest: legal, cost ").expect(file);
        words.split(',').next().map(String::from)
    };
    let costs = ["x.svg", "x-2.svg", "x-2-2.svg"].map(cheapest);
    assert_eq!(costs, ["12", "7", "100"].map(|cost| Some(cost.to_string())));
}

#[test]
fn a_job_that_failed_has_a_row_that_says_why() {
    let folder = folder("failed_row");
    put(&folder, "a.job", PAST);
    let (_, _, status) = batch(&folder, &["--html", "page", "no.job", "a.job"]);
    assert_eq!(status, Some(2));
    let page = text(folder.join("page/index.html"));
    check_well_formed(&page);
    let [failed, done] = &rows(&page)[..] else {
        panic!("{page}");
    };
    assert_eq!((&*failed[0], &*failed[1]), ("no.job", "failed"));
    assert_eq!((&*done[0], &*done[1]), ("a.job", "answered"));
    let title = "<td title=\"cannot open no.job: there is no such file\">failed</td>";
    assert!(page.contains(title), "{page}");
    assert_eq!(names(&folder.join("page")), ["a.svg", "index.html"]);
}

#[test]
fn names_are_escaped_in_the_page() {
    let folder = folder("escaped");
    put(&folder, "<b>&\"x\" %#.job", PAST);
    let (_, notes, status) = batch(&folder, &["--html", "page", "."]);
    assert_eq!((&*notes, status), ("", Some(0)));
    let page = text(folder.join("page/index.html"));
    check_well_formed(&page);
    let link = "<a href=\"./%3Cb%3E%26%22x%22%20%25%23.svg\">";
    let name = "./&lt;b&gt;&amp;&quot;x&quot; %#.job</a>";
    assert!(page.contains(&format!("{link}{name}")), "{page}");
}
