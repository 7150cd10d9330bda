//! Pictures of generated jobs: well-formed, legible, with as many marks of steps as Score and Place
//! count, and with what these say in words.

mod picture;
mod svg;

use importer::draw::draw;
use importer::{refine, score, sentence, Broken, Numbers, Verdict};
use picture::Picture;
use trial::generate::{jobs, legal, placements, small, Random};
use trial::plain::job::Job;
use trial::plain::placement::{given_rows, text_of, Placement};

/// Draws a placement, alone or with a cheapest one, and checks what holds of every picture.
fn drawn(job: &Job, placement: Option<&Placement>, cheapest: bool) -> Picture {
    let placement = placement.map(|placement| text_of(placement));
    let text = draw(&job.text(), placement.as_deref(), cheapest);
    let picture = Picture::of(&text.expect("Read and Score take the texts"));
    picture.check();
    for cell in 1..=job.cells.len() {
        let start = format!("cell {cell}: row");
        assert!(picture.titles(&start) > 0, "cell {cell} is missing");
    }
    assert_eq!(picture.has("fixed"), job.fixed_cells() > 0);
    picture
}

/// The numbers of a placement, if it is legal.
fn numbers(job: &Job, placement: &Placement) -> Result<Numbers, Broken> {
    match score(&job.text(), &text_of(placement)) {
        Ok(Verdict::Legal(numbers)) => Ok(numbers),
        Ok(Verdict::Broken(broken)) => Err(broken),
        Err(refused) => panic!("{refused}"),
    }
}

/// Numbers in the words of a description.
fn words(numbers: &Numbers) -> String {
    let Numbers {
        steps,
        shifted,
        mirrored,
        changed,
        cost,
        drift,
        filled,
    } = numbers;
    let filled = filled.map(|filled| format!(", filled steps {filled}"));
    format!(
        "legal, cost {cost}, steps {steps}, sites shifted {shifted}, mirrored {mirrored}, \
         changed {changed}, drift {drift} hundredths of a site{}.",
        filled.unwrap_or_default()
    )
}

/// Checks a legal placement alone, then beside a cheapest one. Returns the marks of the first.
fn check_marks(job: &Job, placement: &Placement) -> [usize; 2] {
    let numbers = numbers(job, placement).expect("the placement is legal");
    let alone = drawn(job, Some(placement), false);
    let marks = alone.steps();
    assert_eq!(marks.iter().sum::<usize>(), numbers.steps as usize);
    let filled = numbers.filled.map(|filled| filled as usize);
    assert_eq!(filled.unwrap_or(marks[1]), marks[1]);
    let said = format!("placement: {}", words(&numbers));
    assert!(alone.description().starts_with(&said), "{said}");
    let cheapest = refine(&job.text()).expect("a legal placement exists");
    let both = drawn(job, Some(placement), true);
    let steps = numbers.steps + cheapest.numbers.steps;
    assert_eq!(both.steps().iter().sum::<usize>(), steps as usize);
    let said = format!("cheapest: {}", words(&cheapest.numbers));
    assert!(both.description().contains(&said), "{said}");
    marks
}

#[test]
fn legal_placements_have_as_many_marks_as_steps() {
    let mut random = Random::new(81);
    let (mut seen, mut fixed, mut filled) = ([0; 2], 0, 0);
    for _ in 0..300 {
        let (job, placement) = placements::job_with_legal_placement(&mut random);
        let marks = check_marks(&job, &placement);
        seen = [seen[0] + marks[0], seen[1] + marks[1]];
        fixed += usize::from(job.fixed_cells() > 0);
        filled += usize::from(job.weights.filled.is_some() && marks[1] > 0);
    }
    assert!(seen[0] > 1_000 && seen[1] > 200, "{seen:?}");
    assert!(fixed > 60, "{fixed} with fixed cells");
    assert!(filled > 10, "{filled} weigh filled steps and have some");
}

#[test]
fn dense_rows_of_64_cells_stay_legible() {
    let mut random = Random::new(82);
    for most_width in [1, 2, 4, 12] {
        for most_height in [1, 3, 15] {
            let shape = legal::Shape {
                most_width,
                most_height,
                ..legal::HEAVY
            };
            let job = legal::job(&mut random, &shape);
            check_marks(&job, &given_rows(&job));
        }
    }
}

#[test]
fn placed_small_jobs_have_the_cheapest_steps() {
    let mut random = Random::new(83);
    let mut placed = 0;
    for _ in 0..400 {
        let job = small::job(&mut random);
        let picture = drawn(&job, None, true);
        let of_given = numbers(&job, &given_rows(&job));
        match (refine(&job.text()), of_given) {
            (Ok(cheapest), Ok(given)) => {
                let steps = cheapest.numbers.steps + given.steps;
                assert_eq!(picture.steps().iter().sum::<usize>(), steps as usize);
                placed += 1;
            }
            (Ok(_), Err(_)) => {}
            (Err(refused), _) => {
                let said = format!("cheapest: {}.", refused.reason());
                assert!(picture.description().ends_with(&said), "{said}");
            }
        }
    }
    assert!(placed > 50, "{placed}");
}

#[test]
fn broken_placements_are_told_and_stay_legible() {
    let mut random = Random::new(84);
    let mut rules = [0; 9];
    for count in 0..2_400 {
        let (job, mut placement) = placements::job_with_legal_placement(&mut random);
        placements::break_rule(&mut random, 1 + count % 8, &job, &mut placement);
        let picture = drawn(&job, Some(&placement), false);
        let Err(Broken { rule, .. }) = numbers(&job, &placement) else {
            assert!(!picture.has("named"));
            continue;
        };
        rules[rule as usize] += 1;
        let sentence = sentence(&job.text(), &text_of(&placement)).expect("Score took the texts");
        let said = format!("placement: not legal, rule {rule}: {sentence}");
        assert_eq!(picture.description(), said);
        // Each cell has a frame in each band that it is seen in, and the key has one.
        let named = sentence.matches("cell ").count();
        assert!(picture.shapes("named") > named, "a frame is missing");
        assert!(rule != 1 || picture.has("lx"));
        assert!(rule != 2 || picture.has("past"));
        assert!(rule != 4 || picture.has("over"));
        assert!(![5, 8].contains(&rule) || picture.has("one"));
    }
    assert!(rules[1..].iter().all(|&seen| seen > 3), "{rules:?}");
}

#[test]
fn wild_placements_are_drawn_too() {
    let mut random = Random::new(85);
    for _ in 0..200 {
        let job = jobs::job_of_any_size(&mut random);
        let placement = placements::wild(&mut random, &job);
        drawn(&job, Some(&placement), false);
        drawn(&job, None, false);
    }
}

/// No picture is wider than one band, which `check` sees to; here every cell of a long row is in
/// it, and the site before which its band is numbered.
#[test]
fn rows_of_1024_sites_wrap() {
    let mut random = Random::new(86);
    for cells in [0, 1, 2, 16, 40, 64] {
        let mut job = jobs::job(&mut random, cells);
        job.sites = 1024;
        let picture = drawn(&job, None, false);
        for cell in &job.cells {
            let tens = cell.given / 10 * 10;
            assert!(picture.has_text(&tens.to_string()), "no number {tens}");
        }
    }
}
