//! `refine draw` as a program, and the picture that README shows.

use std::fs;
use std::path::{Path, PathBuf};
use std::process::{Command, Output};

const WORKED: &str = include_str!("../../examples/worked.job");

/// A file of the repository.
fn repository(path: &str) -> PathBuf {
    Path::new(env!("CARGO_MANIFEST_DIR")).join("..").join(path)
}

fn draw<Argument: AsRef<std::ffi::OsStr>>(arguments: &[Argument]) -> Output {
    let mut refine = Command::new(env!("CARGO_BIN_EXE_refine"));
    let refine = refine.arg("draw").args(arguments).output();
    refine.expect("refine ends")
}

/// Standard output, standard error and exit status.
fn told(output: &Output) -> (String, String, Option<i32>) {
    let text = |bytes: &[u8]| String::from_utf8_lossy(bytes).into_owned();
    (
        text(&output.stdout),
        text(&output.stderr),
        output.status.code(),
    )
}

/// A file for one test, in the folder that cargo keeps for tests.
fn file(name: &str, text: &str) -> String {
    let path = format!("{}/{name}", env!("CARGO_TARGET_TMPDIR"));
    fs::write(&path, text).expect("a test may write its files");
    path
}

/// Checks a picture with xmllint, where that is installed.
fn check_form(path: &Path) {
    let run = Command::new("xmllint").arg("--noout").arg(path).output();
    if let Ok(said) = run {
        assert!(said.status.success(), "{}", told(&said).1);
    }
}

#[test]
fn the_picture_of_readme_is_what_draw_prints() {
    let (job, kept) = ("examples/rows.job", "docs/pictures/rows.svg");
    let output = draw(&[repository(job).as_os_str(), "--best".as_ref()]);
    let (picture, notes, status) = told(&output);
    assert_eq!((&*notes, status), ("", Some(0)));
    let shown = fs::read_to_string(repository(kept)).expect("the picture is kept");
    let anew = format!("refine draw {job} --best > {kept}");
    assert!(picture == shown, "the picture has changed: {anew}");
    assert!(picture.len() < 60_000, "{} bytes", picture.len());
    check_form(&repository(kept));
    let readme = include_str!("../../README.md");
    assert!(readme.contains(kept), "README does not show it");
}

/// The worked example: both heights differ between the cells as given, and not once the first is
/// mirrored.
#[test]
fn the_worked_example_is_drawn_with_its_steps() {
    let job = file("draw_worked.job", WORKED);
    let (given, _, status) = told(&draw(&[&*job]));
    assert_eq!(status, Some(0));
    assert!(given.contains("given rows: legal, cost 200, steps 2, "));
    assert_eq!(given.matches("<path class=\"s0\"").count(), 2);
    assert_eq!(given.matches("<path class=\"mir\"").count(), 0);
    let placement = file("draw_worked.placement", "2,0,1\n6,0,0\n");
    let (mirrored, _, status) = told(&draw(&[&*job, &placement]));
    assert_eq!(status, Some(0));
    assert!(mirrored.contains("placement: legal, cost 100, steps 0, "));
    assert_eq!(mirrored.matches("<path class=\"s0\"").count(), 0);
    // The cell's and the key's.
    assert_eq!(mirrored.matches("<path class=\"mir\"").count(), 2);
    let as_it_stands = "mark 1; left P 2 N 2, right P 3 N 3; given 2</title>";
    assert!(mirrored.contains(as_it_stands), "{mirrored}");
}

/// The worked example with a wider limit, and the second cell at each gap: both heights differ.
#[test]
fn marks_tell_cells_that_abut_from_fillers() {
    let job = file("draw_gaps.job", &WORKED.replace("J,1,20,1,", "J,1,20,7,"));
    let marks_and_shades = [
        (0, [2, 0], [0, 0, 0]),
        (1, [0, 0], [1, 0, 0]),
        (2, [0, 2], [0, 1, 0]),
        (3, [0, 2], [0, 1, 0]),
        (4, [0, 0], [0, 0, 1]),
    ];
    for (gap, marks, shades) in marks_and_shades {
        let placement = format!("2,0,0\n{},0,0\n", 6 + gap);
        let placement = file(&format!("draw_gap_{gap}.placement"), &placement);
        let (picture, _, status) = told(&draw(&[&*job, &placement]));
        assert_eq!(status, Some(0));
        let count = |start: &str| picture.matches(start).count();
        let found = ["s0", "s2"].map(|class| count(&format!("<path class=\"{class}\"")));
        assert_eq!(found, marks, "gap {gap}");
        // A shade that is there stands in the key too.
        let found = ["one", "fill", "wide"].map(|class| count(&format!("<rect class=\"{class}\"")));
        assert_eq!(found, shades.map(|shades| 2 * shades), "gap {gap}");
    }
}

/// As given there are two steps at gap 0 and a filled one, in the cheapest placement one and two.
#[test]
fn filled_steps_that_have_their_own_weight_are_told() {
    let job = repository("examples/filled.job");
    let (picture, notes, status) = told(&draw(&["--best".as_ref(), job.as_os_str()]));
    assert_eq!((&*notes, status), ("", Some(0)));
    let filled = |name, cost, shifted, drift, filled| {
        format!(
            "{name}: legal, cost {cost}, steps 3, sites shifted {shifted}, mirrored 0, changed 0, \
             drift {drift} hundredths of a site, filled steps {filled}."
        )
    };
    let [given, cheapest] = [
        filled("given rows", 230, 0, 0, 1),
        filled("cheapest", 162, 2, 67, 2),
    ];
    assert!(
        picture.contains(&format!(">{given} {cheapest}</desc>")),
        "{picture}"
    );
    let weights = "weights: step 100, shift 1, mirror 100, swap 50, filled 30</text>";
    assert!(picture.contains(weights), "{picture}");
    assert_eq!(picture.matches(">filled steps</text>").count(), 1);
    let marks = ["s0", "s2"].map(|class| format!("<path class=\"{class}\""));
    assert_eq!(marks.map(|mark| picture.matches(&mark).count()), [3, 3]);
    check_form(Path::new(&file("draw_filled.svg", &picture)));
    // Of other jobs there is no word of them.
    let (picture, ..) = told(&draw(&[file("draw_unfilled.job", WORKED)]));
    assert!(!picture.contains("filled"), "{picture}");
}

#[test]
fn the_word_for_a_cheapest_one_may_stand_anywhere() {
    let job = file("draw_best.job", WORKED);
    let placement = file("draw_best.placement", "2,0,0\n6,0,0\n");
    let said = told(&draw(&[&*job, &placement, "--best"]));
    assert!(said.0.contains("cheapest: legal, cost 100, steps 0, "));
    assert_eq!(told(&draw(&["--best", &job, &placement])), said);
    let path = file("draw_best.svg", &said.0);
    check_form(Path::new(&path));
}

#[test]
fn a_broken_rule_is_told_in_the_picture() {
    let job = file("draw_broken.job", WORKED);
    let placement = file("draw_broken.placement", "2,0,0\n7,0,0\n");
    let (picture, notes, status) = told(&draw(&[&*job, &placement]));
    assert_eq!((&*notes, status), ("", Some(0)));
    let said = "placement: not legal, rule 5: one-site gap: cell 1, cell 2.</desc>";
    assert!(picture.contains(said), "{picture}");
    assert!(picture.contains(">not legal, rule 5: one-site gap: cell 1, cell 2.</text>"));
    assert_eq!(picture.matches("<rect class=\"one\"").count(), 2);
    // Both cells are framed, and the key has the sign too.
    assert_eq!(picture.matches("<rect class=\"named\"").count(), 3);
}

/// One cell of three is fixed: hatched as given and in the cheapest placement, and in the key. One
/// that was moved is told with the site at which it is fixed.
#[test]
fn a_fixed_cell_is_hatched() {
    let job = repository("examples/fixed.job");
    let job = job.to_str().expect("a path in Unicode");
    let (picture, notes, status) = told(&draw(&["--best", job]));
    assert_eq!((&*notes, status), ("", Some(0)));
    assert_eq!(picture.matches("<rect class=\"fixed\"").count(), 3);
    assert!(picture.contains("<title id=\"title\">Row of 3 cells (1 fixed), 20 sites</title>"));
    let title = "<title>cell 2: row 0, site 8, width 4, layout 0, mark 0; \
                 left P 3 N 3, right P 2 N 2; fixed at site 8</title>";
    assert_eq!(picture.matches(title).count(), 2, "{picture}");
    let placement = file("draw_fixed.placement", "0,0,0\n9,0,1\n13,0,0\n");
    let (picture, _, _) = told(&draw(&[job, &placement]));
    let words = "not legal, rule 1: choice not offered: cell 2.";
    assert!(picture.contains(words), "{picture}");
    assert!(picture.contains("<title>cell 2: fixed at site 8, stands at site 9</title>"));
    assert!(picture.contains("mark 1 (not offered); "), "{picture}");
    // Without a fixed cell there is no word of them.
    let (picture, _, _) = told(&draw(&[file("draw_free.job", WORKED)]));
    assert!(!picture.contains("class=\"fixed\"") && !picture.contains(">fixed<"));
}

#[test]
fn without_a_legal_placement_the_given_rows_are_drawn() {
    let cell = "C,0,0,0,1,3,1,1,1,1\n";
    let job = file("draw_none.job", &format!("J,1,5,7,1,1,1,1,1\n{cell}{cell}"));
    let (picture, _, status) = told(&draw(&[&*job, "--best"]));
    assert_eq!(status, Some(0));
    assert!(picture.contains("cheapest: no legal placement exists."));
    assert!(picture.contains("<rect class=\"over\""));
}

#[test]
fn refused_texts_are_refused_as_by_score() {
    let job = file("draw_refused.job", "J,1\n");
    let (output, notes, status) = told(&draw(&[&*job]));
    assert_eq!((&*output, status), ("refused,1,1\n", Some(1)));
    assert!(notes.contains("/draw_refused.job:1: 2 fields, "), "{notes}");
    let job = file("draw_refused_2.job", WORKED);
    let placement = file("draw_refused_2.placement", "2,0,0\n7,0\n");
    let (output, notes, status) = told(&draw(&[&*job, &placement]));
    assert_eq!((&*output, status), ("refused,5,2\n", Some(1)));
    assert!(notes.contains("/draw_refused_2.placement:2: "), "{notes}");
}

#[test]
fn other_arguments_are_usage_errors() {
    let job = &*file("draw_usage.job", WORKED);
    for (arguments, files) in [(&[][..], 0), (&["--best"], 0), (&[job, job, job], 3)] {
        let (output, notes, status) = told(&draw(arguments));
        assert_eq!((&*output, status), ("", Some(2)));
        let start = format!("refine: wrong number of arguments: {files}; ");
        assert!(notes.starts_with(&start), "{notes}");
    }
    let (output, notes, status) = told(&draw(&["no/such/file"]));
    assert_eq!((&*output, status), ("", Some(2)));
    assert!(notes.starts_with("refine: cannot open"), "{notes}");
}
