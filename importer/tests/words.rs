//! What answers and refusals say of themselves: kinds beside numbers, and words.

use importer::{read, score, Broken, Numbers, RefusalKind, Refused, Verdict, REFUSALS};
use std::collections::BTreeSet;
use std::error::Error;

const HEADER: &str = include_str!("../include/refiner.h");

const JOB: &[u8] = b"J,1,60,7,1,7,11,13,17
C,0,10,1,1,4,1,1,2,2
C,0,14,1,1,4,1,1,2,2
C,0,30,0,2,4,1,1,2,2,4,1,1,5,5
C,0,36,1,1,4,6,7,8,9
C,0,40,0,1,4,6,8,1,1
";

/// A kind's name as the header would have it: `NoLegal` is `NO_LEGAL`.
fn header_name(kind: RefusalKind) -> String {
    let mut name = String::new();
    for letter in format!("{kind:?}").chars() {
        if letter.is_ascii_uppercase() && !name.is_empty() {
            name.push('_');
        }
        name.push(letter.to_ascii_uppercase());
    }
    name
}

#[test]
fn each_refusal_has_a_kind_of_the_headers_name() {
    for entry in REFUSALS {
        let line = format!(
            "REFINER_REFUSED_{} = {}",
            header_name(entry.kind),
            entry.number
        );
        let found = HEADER
            .lines()
            .any(|shown| shown.trim().trim_end_matches(',') == line);
        assert!(found, "the header lacks {line}");
    }
    let names: BTreeSet<String> = REFUSALS
        .iter()
        .map(|entry| header_name(entry.kind))
        .collect();
    assert_eq!(names.len(), REFUSALS.len(), "a kind stands twice");
}

#[test]
fn a_refusal_has_the_kind_of_its_number() {
    for entry in REFUSALS {
        let refused = Refused {
            number: entry.number,
            line: 0,
        };
        assert_eq!(refused.kind(), entry.kind);
        assert_eq!(entry.kind.to_string(), entry.meaning);
    }
    for number in [0, 999, u32::MAX] {
        let kind = Refused { number, line: 0 }.kind();
        assert_eq!(kind, RefusalKind::Unknown);
        assert_eq!(kind.to_string(), "an unknown refusal");
    }
}

#[test]
fn refused_calls_have_their_kinds() {
    let kind = |job: &[u8]| read(job).map_err(|refused| refused.kind());
    let header = "J,1,60,7,1,7,11,13,17\n";
    let cell = "C,0,10,1,1,4,1,1,2,2\n";
    assert_eq!(kind(b""), Err(RefusalKind::Form));
    assert_eq!(kind(b"J,3,60,7,1,7,11,13,17\n"), Err(RefusalKind::Range));
    let many = header.to_owned() + &cell.repeat(65);
    assert_eq!(kind(many.as_bytes()), Err(RefusalKind::Count));
    let falls = format!("{header}{cell}C,0,9,1,1,4,1,1,2,2\n");
    assert_eq!(kind(falls.as_bytes()), Err(RefusalKind::Order));
    let missing = score(JOB, b"").map_err(|refused| refused.kind());
    assert_eq!(missing, Err(RefusalKind::Placement));
    let lent = |store: &mut [u32], output: &mut [u8]| {
        importer::place(JOB, store, output).map_err(|refused| refused.kind())
    };
    assert_eq!(lent(&mut [], &mut []), Err(RefusalKind::Store));
    let mut store = vec![0; importer::STORE_WORDS];
    assert_eq!(lent(&mut store, &mut [0; 44]), Err(RefusalKind::Output));
    let load = |cells| importer::load(1, cells, &mut []).map_err(|refused| refused.kind());
    assert_eq!(load(65), Err(RefusalKind::LoadCount));
    assert_eq!(load(64), Err(RefusalKind::LoadOutput));
    let told = importer::reasons(b"J,1,9,0,0,1,1,1,1\n", b"", &mut []);
    let kind = told.map_err(|refused| refused.kind());
    assert_eq!(kind, Err(RefusalKind::ReasonsOutput));
}

#[test]
fn a_verdict_tells_each_number_behind_its_name() {
    // Worked in `answers.rs`: six different numbers.
    let verdict = score(JOB, b"9,0,1\n13,0,0\n30,1,0\n34,0,1\n40,0,0\n");
    let verdict = verdict.expect("both texts are accepted");
    let numbers = "cost 108, steps 3, sites shifted 4, mirrored 2, changed 1, drift -80";
    assert_eq!(verdict.to_string(), format!("legal: {numbers}"));
    assert_eq!(
        verdict.legal().map(|found| found.to_string()),
        Ok(numbers.into())
    );
}

#[test]
fn a_verdict_tells_the_cell_and_the_rule() {
    // Cell 4 stands one empty site behind cell 3.
    let verdict = score(JOB, b"9,0,1\n13,0,0\n30,1,0\n35,0,1\n40,0,0\n");
    let verdict = verdict.expect("both texts are accepted");
    let asks = "between neighbours in a row there is never just one empty site";
    assert_eq!(verdict.to_string(), format!("cell 3 breaks rule 5: {asks}"));
    assert_eq!(verdict.legal(), Err(Broken { rule: 5, cell: 3 }));
}

/// `?` takes a refusal and a broken rule alike.
fn cost(job: &[u8], placement: &[u8]) -> Result<u32, Box<dyn Error>> {
    let Numbers { cost, .. } = score(job, placement)?.legal()?;
    Ok(cost)
}

#[test]
fn refusals_and_broken_rules_are_errors() {
    let told = |placement: &[u8]| cost(JOB, placement).map_err(|error| error.to_string());
    assert_eq!(told(b"9,0,1\n13,0,0\n30,1,0\n34,0,1\n40,0,0\n"), Ok(108));
    let refused = told(b"9\n").unwrap_err();
    assert!(refused.starts_with("refusal 5 at line 1: "), "{refused}");
    let broken = told(b"9,1,1\n13,0,0\n30,1,0\n34,0,1\n40,0,0\n").unwrap_err();
    assert!(broken.starts_with("cell 1 breaks rule 1: "), "{broken}");
    let unknown = Verdict::Broken(Broken { rule: 999, cell: 1 }).to_string();
    assert!(
        unknown.ends_with("a rule that this program does not know"),
        "{unknown}"
    );
}
