//! Which jobs of the farm's load have a legal placement: Place and the plain search agree on each,
//! and docs/LOAD.md tells how many they are.

use importer::{farm_job, Refiner};
use trial::plain;
use trial::plain::scorer::verdict;
use trial::plain::search::cheapest;

const PAPER: &str = include_str!("../../../docs/LOAD.md");

/// Counts of cells, and how many seeds of each were placed, from 1 on.
const RUNS: [(u32, u32); 5] = [(64, 1000), (32, 200), (16, 200), (8, 200), (4, 200)];

/// The cost of a load's cheapest placement, by the plain search.
fn plain_cost(seed: u32, cells: u32) -> Option<u32> {
    let job = plain::load::job(seed, cells as usize);
    let placement = cheapest(&job)?;
    let numbers = verdict(&job, &placement);
    Some(numbers.expect("the plain search's placement is legal").cost)
}

/// How many seeds, from 1 to the last, give a job that has a legal placement.
fn legal(refiner: &mut Refiner, cells: u32, last: u32) -> usize {
    let is_legal = |seed: &u32| {
        let job = farm_job(*seed, cells).expect("64 cells are not too many");
        let cost = match refiner.place(&job) {
            Ok(answer) => Some(answer.numbers().cost),
            Err(refused) => {
                assert_eq!((refused.number, refused.line), (8, 0), "seed {seed}");
                None
            }
        };
        assert_eq!(cost, plain_cost(*seed, cells), "seed {seed}, {cells} cells");
        cost.is_some()
    };
    (1..=last).filter(is_legal).count()
}

/// The rows of the paper's table, as far as they are numbers: cells, seeds, legal ones.
fn told() -> Vec<[usize; 3]> {
    let rows = PAPER.lines().filter_map(|line| line.strip_prefix("| "));
    let row = |row: &str| {
        let mut numbers = row
            .split('|')
            .map(|cell| cell.trim().replace(',', "").parse());
        let mut next = || numbers.next()?.ok();
        Some([next()?, next()?, next()?])
    };
    rows.filter_map(row).collect()
}

#[test]
fn the_paper_tells_how_many() {
    let mut refiner = Refiner::new();
    let counted = RUNS.map(|(cells, seeds)| {
        let legal = legal(&mut refiner, cells, seeds);
        [cells as usize, seeds as usize, legal]
    });
    assert_eq!(told(), counted);
}
