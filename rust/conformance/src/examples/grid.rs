//! A robot on a grid that does not know where it is.

use super::{names, Example, Trial};
use crate::encode;
use crate::families::grid;
use crate::shell::Names;

const SIDE: u8 = 5;

pub fn example() -> Example {
    let problem = encode::problem(&grid::problem(SIDE));
    Example {
        folder: "grid",
        about: ABOUT.into(),
        trials: vec![
            Trial::right(
                &problem,
                &grid::plan(SIDE),
                "Four times north and four times west lead to the corner from anywhere, then\n\
                 twice south and twice east to the centre. `plan` is right.",
            ),
            Trial::wrong(
                &problem,
                &grid::north_times(SIDE, SIDE - 2),
                "`wrong-plan` is one step north short. From the south wall it ends one row too far\n\
                 south.",
            ),
        ],
        names: vec![("names", called())],
        search: None,
        merging: None,
    }
}

fn called() -> Names {
    let line = |word: &'static str| (0..SIDE).map(move |number| format!("{word}-{number}"));
    Names {
        facts: line("row").chain(line("column")).collect(),
        ..names::names(&[], &["north", "south", "west", "east"])
    }
}

const ABOUT: &str = "\
# Grid

A robot on a grid of 5 by 5 that does not know where it is and cannot see. A move
into the wall leaves it where it was. It must end in the centre.

Facts, 10 in all:

- r, which is 0 to 4: it is in row r, counted from the north wall
- 5 + c, which is 5 to 9: it is in column c, counted from the west wall

At the start, exactly one row and exactly one column are true. The goal is row 2
and column 2: facts 2 and 7.

Actions, all of them always applicable:

- 0: one row north
- 1: one row south
- 2: one column west
- 3: one column east

A move has a set and a clear entry for each row or column between the walls: set
where the one that it comes from is true, cleared where that is not. While that
is unknown, the two read unknown together, and no case carries. So each case that
carries fixes all columns: 25 lines, one for each start state, and the other 66
hold no start state. Were unknown taken for no, 41 lines would do.
";
