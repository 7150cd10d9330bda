//! Load's refusals 9 and 10: their order, what they leave untouched, every length of results.

use trial::generate::Random;
use trial::lent::{Arrays, LONGEST};
use trial::plain::load::{load, OUTPUT};

const UNTOUCHED: u8 = 0xaa;

/// Calls Load with an output of so many bytes and an array of the next length; the number that it
/// returns, once all that it left was looked at.
fn number(arrays: &mut Arrays, seed: u32, cells: u32, bytes: usize) -> u32 {
    let mut output = vec![UNTOUCHED; bytes];
    let left = arrays.lend(|results| importer::calls::load(seed, cells, &mut output, results));
    let (results, text) = match load(seed, cells, bytes) {
        Ok(text) => ([0, 0, text.len() as i32], text),
        Err(refused) => ([refused.number as i32, refused.line as i32, 0], Vec::new()),
    };
    if let Err(difference) = left.check(results[0] as u32, &results) {
        panic!("Load {difference} of {cells} cells in {bytes} bytes");
    }
    let (written, rest) = output.split_at(text.len());
    assert_eq!(written, text);
    assert!(rest.iter().all(|&byte| byte == UNTOUCHED));
    left.returned()
}

/// Calls Load with an array of each length.
fn check(cells: u32, bytes: usize, expected: u32) {
    let mut arrays = Arrays::default();
    for length in 0..=LONGEST {
        let seed = [0, 1, 1 << 31, u32::MAX][length % 4];
        let number = number(&mut arrays, seed, cells, bytes);
        assert_eq!(number, expected, "{cells} cells in {bytes} bytes");
    }
}

#[test]
fn the_count_is_tried_before_the_output() {
    check(65, OUTPUT - 1, 9);
    check(65, 0, 9);
    check(u32::MAX, 0, 9);
    check(64, OUTPUT - 1, 10);
    check(64, 0, 10);
    check(0, 0, 10);
    check(0, OUTPUT - 1, 10);
}

#[test]
fn the_count_is_refused_to_a_large_output_too() {
    for cells in [65, 66, 127, 128, 255, u32::MAX - 1, u32::MAX] {
        check(cells, OUTPUT, 9);
        check(cells, OUTPUT + 1, 9);
    }
    // Counts that are small in their last bits.
    for bit in 6..32 {
        check((1 << bit) + 1, OUTPUT, 9);
    }
}

#[test]
fn what_is_just_enough_is_answered() {
    for cells in [0, 1, 63, 64] {
        check(cells, OUTPUT, 0);
        check(cells, OUTPUT + 1, 0);
    }
}

#[test]
fn on_any_count_and_any_output() {
    let mut random = Random::new(73);
    let mut arrays = Arrays::default();
    let mut seen = [0; 11];
    for _ in 0..20_000 {
        let seed = random.below(1 << 32) as u32;
        let most = random.pick(&[65, 67, 200, 1 << 32]);
        let cells = random.below(most) as u32;
        let bytes = match random.below(3) {
            0 => random.below(2 * OUTPUT),
            1 => OUTPUT - 1 - random.below(3),
            _ => OUTPUT + random.below(3),
        };
        let number = number(&mut arrays, seed, cells, bytes);
        seen[number as usize] += 1;
    }
    let [answered, .., nine, ten] = seen;
    assert_eq!(answered + nine + ten, 20_000, "{seen:?}");
    assert!(answered.min(nine).min(ten) > 3_000, "{seen:?}");
}
