//! Cells that must not move (A2): its edges, worked out by hand.

use importer::{read, refine, score, Broken, Refined, Refused, Verdict};
use trial::generate::{jobs, Random};

/// What Place makes of a job: cost and text, or the refusal's number.
fn placed(job: &str) -> Result<(u32, String), u32> {
    match refine(job.as_bytes()) {
        Ok(Refined { numbers, text }) => Ok((numbers.cost, String::from_utf8_lossy(&text).into())),
        Err(refused) => Err(refused.number),
    }
}

fn at(cost: u32, text: &str) -> Result<(u32, String), u32> {
    Ok((cost, text.into()))
}

/// The first rule that a placement breaks and its lowest cell, or none.
fn broken(job: &str, placement: &str) -> Option<(u32, u32)> {
    match score(job.as_bytes(), placement.as_bytes()) {
        Ok(Verdict::Legal(_)) => None,
        Ok(Verdict::Broken(Broken { rule, cell })) => Some((rule, cell)),
        Err(refused) => panic!("{refused}"),
    }
}

/// A row of so many sites with D 7 and R 1, where each site shifted costs 1 and nothing else does.
fn row(sites: u32, cells: &[&str]) -> String {
    format!("J,1,{sites},7,1,0,1,0,0\n{}\n", cells.join("\n"))
}

#[test]
fn past_the_row() {
    // Sites 8 to 11 of 10. Let move, the cell ends with the row at site 6.
    let fixed = row(10, &["F,0,8,0,1,4,1,1,1,1"]);
    assert_eq!(broken(&fixed, "8,0,0\n"), Some((2, 1)));
    assert_eq!(broken(&fixed, "6,0,0\n"), Some((3, 1)));
    assert_eq!(placed(&fixed), Err(8));
    assert_eq!(placed(&fixed.replace('F', "C")), at(2, "6,0,0\n"));
}

#[test]
fn two_that_overlap_or_leave_one_site() {
    let two = |given: u32, leads: [&str; 2]| {
        let [left, right] = leads;
        let right = format!("{right},0,{given},0,1,4,1,1,1,1");
        row(20, &[&format!("{left},0,2,0,1,4,1,1,1,1"), &right])
    };
    // The first takes sites 2 to 5.
    assert_eq!(broken(&two(4, ["F", "F"]), "2,0,0\n4,0,0\n"), Some((4, 1)));
    assert_eq!(broken(&two(7, ["F", "F"]), "2,0,0\n7,0,0\n"), Some((5, 1)));
    for given in [2, 4, 5, 7] {
        assert_eq!(placed(&two(given, ["F", "F"])), Err(8), "{given}");
    }
    // At 6 they touch, at 8 two sites are between them.
    for given in [6, 8, 9] {
        let text = format!("2,0,0\n{given},0,0\n");
        assert_eq!(placed(&two(given, ["F", "F"])), at(0, &text));
    }
    // Of a pair that overlaps, the one that may move does, by two sites, until they touch.
    assert_eq!(placed(&two(4, ["F", "C"])), at(2, "2,0,0\n6,0,0\n"));
    assert_eq!(placed(&two(4, ["C", "F"])), at(2, "0,0,0\n4,0,0\n"));
    // One site apart, it moves by one: to 6 or 8, and to 3 alone, as at 1 the row begins with one
    // empty site.
    let cost = placed(&two(7, ["F", "C"])).map(|(cost, _)| cost);
    assert_eq!(cost, Ok(1));
    assert_eq!(placed(&two(7, ["C", "F"])), at(1, "3,0,0\n7,0,0\n"));
}

/// A fixed cell behind one empty site is no refusal yet: a free one may come to stand before it.
#[test]
fn at_a_row_end() {
    let job = |reordering: u32| {
        format!("J,1,20,1,{reordering},0,1,0,0\nF,0,1,0,1,2,1,1,1,1\nC,0,1,0,1,1,1,1,1,1\n")
    };
    assert_eq!(placed(&job(1)), at(1, "1,0,0\n0,0,0\n"));
    assert_eq!(placed(&job(0)), Err(8));
    let alone = row(20, &["F,0,1,0,1,2,1,1,1,1"]);
    assert_eq!(broken(&alone, "1,0,0\n"), Some((8, 1)));
    assert_eq!(placed(&alone), Err(8));
    assert_eq!(placed(&row(20, &["F,0,17,0,1,2,1,1,1,1"])), Err(8));
}

#[test]
fn a_tall_cell() {
    let job = |reordering: u32, row: u32| {
        let tall = "F,2,6,1,2,4,1,1,1,1,1,1,1,1,4,1,1,1,1,1,1,1,1";
        let single = format!("C,{row},6,0,1,3,1,1,1,1");
        format!("J,2,20,7,{reordering},0,1,0,0\n{tall}\n{single}\n")
    };
    for row in [0, 1] {
        let one = |placement: &str| broken(&job(1, row), placement);
        assert_eq!(one("6,0,0\n10,0,0\n"), None);
        assert_eq!(one("6,1,0\n10,0,0\n"), Some((1, 1)));
        assert_eq!(one("6,0,1\n10,0,0\n"), Some((1, 1)));
        assert_eq!(one("5,0,0\n10,0,0\n"), Some((3, 1)));
        // The tall cell takes sites 6 to 9. Left of it the single one stands at 3, in exchange
        // with it, right of it at 10.
        assert_eq!(placed(&job(1, row)), at(3, "6,0,0\n3,0,0\n"));
        assert_eq!(placed(&job(0, row)), at(4, "6,0,0\n10,0,0\n"));
    }
    // Two tall ones fixed on top of each other.
    let tall = "F,2,6,0,1,4,1,1,1,1,1,1,1,1\n";
    let two = format!("J,2,20,7,1,0,1,0,0\n{tall}{tall}");
    assert_eq!(placed(&two), Err(8));
}

/// Mirroring or layout 1 would cost nothing and take both steps away.
#[test]
fn two_layouts_and_mirrorable_all_the_same() {
    let job = |lead: &str| {
        let first = format!("{lead},0,2,1,2,4,3,3,2,2,4,2,2,3,3");
        format!("J,1,20,1,1,100,0,0,0\n{first}\nC,0,6,0,1,4,3,3,2,2\n")
    };
    assert_eq!(placed(&job("F")), at(200, "2,0,0\n6,0,0\n"));
    assert_eq!(placed(&job("C")).map(|(cost, _)| cost), Ok(0));
    assert_eq!(broken(&job("F"), "2,0,0\n6,0,0\n"), None);
    for (pose, rule) in [("2,1,0", 1), ("2,0,1", 1), ("2,2,0", 1), ("2,0,2", 1)] {
        let placement = format!("{pose}\n6,0,0\n");
        assert_eq!(broken(&job("F"), &placement), Some((rule, 1)), "{pose}");
    }
    assert_eq!(broken(&job("F"), "3,1,0\n6,0,0\n"), Some((1, 1)));
    assert_eq!(broken(&job("C"), "2,1,1\n6,0,0\n"), None);
}

/// Rule 3 of a fixed cell, whatever D is.
#[test]
fn no_shift_with_any_limit() {
    for limit in 0..=7 {
        let job = format!("J,1,20,{limit},1,1,1,1,1\nF,0,8,0,1,4,1,1,1,1\n");
        for site in 0..=16 {
            let expected = (site != 8).then_some((3, 1));
            let placement = format!("{site},0,0\n");
            assert_eq!(broken(&job, &placement), expected, "D {limit}, {site}");
        }
        assert_eq!(placed(&job), at(0, "8,0,0\n"));
    }
}

/// In the worked example the first cell may be mirrored and the second may not.
#[test]
fn the_worked_example_with_fixed_cells() {
    let job = |leads: [&str; 2]| {
        let [first, second] = leads;
        let cells = format!("{first},0,2,1,1,4,3,3,2,2\n{second},0,6,0,1,4,3,3,2,2\n");
        format!("J,1,20,1,1,100,1,100,50\n{cells}")
    };
    assert_eq!(placed(&job(["C", "F"])), at(100, "2,0,1\n6,0,0\n"));
    assert_eq!(placed(&job(["F", "C"])), at(200, "2,0,0\n6,0,0\n"));
    assert_eq!(placed(&job(["F", "F"])), at(200, "2,0,0\n6,0,0\n"));
}

#[test]
fn leads_and_counts() {
    let one_row = "J,1,20,1,1,100,1,100,50\n";
    let two_rows = "J,2,20,1,1,100,1,100,50\n";
    let refused = |number, line| Err(Refused { number, line });
    let cells = |text: String| read(text.as_bytes()).map(|read| read.cells);
    for lead in ["FC", "CF", "f", "FF", " F", "F ", "", "K", "J"] {
        let text = format!("{one_row}{lead},0,5,0,1,4,3,3,2,2\n");
        assert_eq!(cells(text), refused(1, 2), "{lead}");
    }
    let first = "F,1,20,1,1,100,1,100,50\n";
    assert_eq!(cells(first.into()), refused(1, 1));
    let single = |lead: &str, count| format!("{lead},0,5,0,1,4,3,3,2,2\n").repeat(count);
    let tall = |lead: &str, count| format!("{lead},2,5,0,1,4,3,3,2,2,3,3,2,2\n").repeat(count);
    for [lead, other] in [["F", "C"], ["C", "F"], ["F", "F"]] {
        let singles = |count| format!("{one_row}{}{}", single(lead, 40), single(other, count));
        assert_eq!(cells(singles(24)), Ok(64));
        assert_eq!(cells(singles(25)), refused(3, 66));
        let talls = |count| format!("{two_rows}{}{}", tall(lead, 14), tall(other, count));
        assert_eq!(cells(talls(10)), Ok(24));
        assert_eq!(cells(talls(11)), refused(3, 26));
    }
}

/// D 0 with no cell fixed beside D 7 with all cells fixed: where no cell is mirrorable and each has
/// one layout, both leave the given rows alone to be placed.
#[test]
fn all_fixed_is_no_displacement() {
    let mut random = Random::new(91);
    let (mut legal, mut none) = (0, 0);
    for count in 0..2_000 {
        let mut job = jobs::job(&mut random, 1 + count % 4);
        job.sites = random.pick(&[40, 200]);
        for cell in &mut job.cells {
            cell.mirrorable = false;
            cell.layouts = 1;
            cell.fixed = false;
        }
        job.displacement = 0;
        let still = refine(&job.text());
        job.displacement = 7;
        job.cells.iter_mut().for_each(|cell| cell.fixed = true);
        let fixed = refine(&job.text());
        assert_eq!(fixed, still, "{}", job.text().escape_ascii());
        match fixed {
            Ok(_) => legal += 1,
            Err(_) => none += 1,
        }
    }
    assert!(legal > 200 && none > 200, "{legal} {none}");
}
