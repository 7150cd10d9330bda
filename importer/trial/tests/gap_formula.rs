//! Document 02, A5: "forbidden if the gap is 1, charged if it is below 4", of each gap that a row
//! has room for; and A7's weight of filled steps.

use importer::{refine, score, Broken, Numbers, Verdict};

/// Steps weigh 7, and filled ones 5 if they have a weight of their own.
const HEADERS: [&str; 2] = ["J,2,1024,7,1,7,1,1,1", "K,2,1024,7,1,7,1,1,1,5"];

/// Two fixed cells of width 2 in a row of 1,024 sites, with so many sites between them. The heights
/// at the right one's left edge, P and N, face two of 1.
fn job(header: &str, row: u32, gap: u32, [p, n]: [u32; 2]) -> String {
    let left = format!("F,{row},0,0,1,2,1,1,1,1");
    let right = format!("F,{row},{},0,1,2,{p},{n},1,1", 2 + gap);
    format!("{header}\n{left}\n{right}\n")
}

fn placement(gap: u32) -> String {
    format!("0,0,0\n{},0,0\n", 2 + gap)
}

/// The steps by document 01's own figures: "a step costs 1 at gap 0, is forbidden at gap 1, costs 1
/// at gaps 2 and 3, and 0 from 4 on". None where it is forbidden.
fn steps(gap: u32, heights: [u32; 2]) -> Option<u32> {
    let differing = heights.iter().filter(|height| **height != 1).count() as u32;
    match gap {
        1 => None,
        0 | 2 | 3 => Some(differing),
        _ => Some(0),
    }
}

/// Steps, cost and filled steps. Of a job led by `K` "a ninth number .. weighs steps at gaps 2 and 3;
/// step weighs those at gap 0".
fn numbers(header: &str, gap: u32, steps: u32) -> (u32, u32, Option<u32>) {
    let at_2_or_3 = gap == 2 || gap == 3;
    match header.starts_with('K') {
        true if at_2_or_3 => (steps, 5 * steps, Some(steps)),
        true => (steps, 7 * steps, Some(0)),
        false => (steps, 7 * steps, None),
    }
}

fn told(numbers: &Numbers) -> (u32, u32, Option<u32>) {
    (numbers.steps, numbers.cost, numbers.filled)
}

/// Each header, each row, each gap up to a largest, and facing heights of which none, one or both
/// differ.
fn each(largest: u32, mut check: impl FnMut(&str, u32, u32, [u32; 2])) {
    for header in HEADERS {
        for row in 0..2 {
            for gap in 0..=largest {
                for heights in [[1, 1], [2, 1], [1, 2], [3, 2]] {
                    check(header, row, gap, heights);
                }
            }
        }
    }
}

#[test]
fn score_counts_steps_at_charged_gaps() {
    each(1016, |header, row, gap, heights| {
        let job = job(header, row, gap, heights);
        let said = score(job.as_bytes(), placement(gap).as_bytes()).expect("two good texts");
        let steps = steps(gap, heights);
        match said {
            Verdict::Legal(said) => {
                let expected = steps.map(|steps| numbers(header, gap, steps));
                assert_eq!(Some(told(&said)), expected, "gap {gap}, {heights:?}");
            }
            Verdict::Broken(broken) => {
                assert_eq!(broken, Broken { rule: 5, cell: 1 }, "gap {gap}");
                assert_eq!(steps, None, "gap {gap}");
            }
        }
    });
}

#[test]
fn place_pays_at_charged_gaps() {
    each(24, |header, row, gap, heights| {
        let placed = refine(job(header, row, gap, heights).as_bytes());
        let steps = steps(gap, heights);
        match placed {
            Ok(refined) => {
                let expected = steps.map(|steps| numbers(header, gap, steps));
                assert_eq!(Some(told(&refined.numbers)), expected, "gap {gap}");
                assert_eq!(refined.text, placement(gap).as_bytes(), "gap {gap}");
            }
            Err(refused) => {
                assert_eq!((refused.number, refused.line), (8, 0), "gap {gap}");
                assert_eq!(steps, None, "gap {gap}");
            }
        }
    });
}
