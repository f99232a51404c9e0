//! A robot on a square grid that does not know where it is. It must end in the
//! centre.

use super::{action, exactly_one, shift, shift_back, times, version_for};
use crate::model::{Formula, Problem};

const NORTH: u8 = 0;
const SOUTH: u8 = 1;
const WEST: u8 = 2;
const EAST: u8 = 3;

/// Fact r is row r, fact `side` + c is column c.
pub fn problem(side: u8) -> Problem {
    let rows: Vec<u8> = (0..side).collect();
    let columns: Vec<u8> = (side..2 * side).collect();
    let mut somewhere = exactly_one(&rows);
    somewhere.extend(exactly_one(&columns));
    Problem {
        version: version_for(2 * side),
        facts: 2 * side,
        initial: Formula::all(somewhere),
        goal: Formula::all([Formula::fact(side / 2), Formula::fact(side + side / 2)]),
        actions: vec![
            action(shift_back(&rows)),
            action(shift(&rows)),
            action(shift_back(&columns)),
            action(shift(&columns)),
        ],
    }
}

/// To the corner from anywhere, and from there to the centre.
pub fn plan(side: u8) -> Vec<u8> {
    north_times(side, side - 1)
}

/// The plan with so many steps north; with fewer than `side` - 1 it is wrong.
pub fn north_times(side: u8, north: u8) -> Vec<u8> {
    [
        times(NORTH, north),
        times(WEST, side - 1),
        times(SOUTH, side / 2),
        times(EAST, side / 2),
    ]
    .concat()
}
