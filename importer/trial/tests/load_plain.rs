//! The plain generator of loads: first draws and a whole text that were worked out apart from it.

use trial::plain::load::{job, Draws};

/// Seeds with their first eight draws. By hand, seed 1's first: s is 1, 8193, again 8193, 270369; w is
/// 362437; their sum is 632806.
const FIRST: [(u32, [u32; 8]); 3] = [
    (
        1,
        [
            632_806,
            68_359_563,
            2_648_522_772,
            309_049_443,
            2_400_501_418,
            747_670_126,
            634_972_541,
            438_655_706,
        ],
    ),
    (
        2_463_534_242,
        [
            723_834_152,
            2_498_091_780,
            2_065_232_111,
            2_009_494_930,
            3_534_116_794,
            376_288_904,
            1_353_173_333,
            694_048_357,
        ],
    ),
    (
        4_294_967_295,
        [
            616_420,
            4_229_107_081,
            1_959_538_578,
            4_058_163_182,
            2_051_315_050,
            2_563_145_610,
            1_707_652_627,
            282_705_955,
        ],
    ),
];

#[test]
fn the_first_eight_draws() {
    let first = |seed| Draws::of(seed).take(8).collect::<Vec<u32>>();
    for (seed, draws) in FIRST {
        assert_eq!(first(seed), draws, "seed {seed}");
    }
    // 0 is taken as 1.
    assert_eq!(first(0), FIRST[0].1);
}

/// A tall cell after one in row 1, one in row 0 after that, and a tall one again.
const FOUR_CELLS: &str = "\
J,2,1024,7,1,100,1,100,50
C,1,4,0,2,15,2,3,2,3,4,3,2,3,1
C,2,12,1,2,9,1,2,3,1,2,1,4,4,15,4,3,2,1,1,1,2,1
C,0,23,1,1,16,2,1,3,3
C,2,35,0,2,16,3,4,4,4,3,3,4,3,6,4,4,3,3,4,1,2,2
";

#[test]
fn a_whole_text() {
    let text = job(5, 4).text();
    assert_eq!(String::from_utf8_lossy(&text), FOUR_CELLS);
    let header = FOUR_CELLS.split_inclusive('\n').next();
    assert_eq!(Some(&*job(7, 0).text()), header.map(str::as_bytes));
}
