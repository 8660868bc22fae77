//! What the tests of known folds share: unit costs, and runs and bytes as they are written down.

use compare::reference;
use runfold::Prices;

pub const UNIT: [u16; 256] = [1; 256];
pub const FREE: [u8; 256] = [0; 256];

/// Every step and group for 1, and no label marked.
pub fn prices(first: u16, each: u16) -> Prices<'static> {
    Prices { steps: &UNIT, groups: &UNIT, marks: &FREE, first, each }
}

/// The same for the independent implementation.
pub fn owned(prices: Prices) -> reference::Prices {
    let Prices { steps, groups, marks, first, each } = prices;
    reference::Prices { steps: steps.to_vec(), groups: groups.to_vec(), marks: marks.to_vec(), first, each }
}

pub fn bytes(hex: &str) -> Vec<u8> {
    let digits: Vec<u32> = hex.chars().filter_map(|c| c.to_digit(16)).collect();
    digits.chunks(2).map(|pair| (pair[0] * 16 + pair[1]) as u8).collect()
}

/// Letters a, b, c .. as steps 01, 02, 03 ..
pub fn word(letters: &str) -> Vec<u8> {
    letters.bytes().flat_map(|letter| [0x10, letter - b'a' + 1]).collect()
}
