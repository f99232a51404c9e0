//! Ways to lay out the few states that are kept of a run: the one that is specified, and
//! others that one could take for it.

use conformance::version::STRETCH;

#[derive(Clone, Copy, Debug, PartialEq, Eq)]
pub enum Layout {
    AsWritten,
    /// The state after a kept one is kept in its place.
    KeptOneLate,
    LastKeptForgotten,
    /// In the rows of a stretch stands what they held last of a run gone through forward.
    LastStretchStands,
    /// Rows that the run does not fill keep their bytes.
    UnusedRowsStay,
}

/// A row, or none where the bytes stay as they are.
type Row = Option<Vec<bool>>;

impl Layout {
    /// All but the one that is right.
    pub const WRONG: [Layout; 4] = [
        Layout::KeptOneLate,
        Layout::LastKeptForgotten,
        Layout::LastStretchStands,
        Layout::UnusedRowsStay,
    ];

    /// Writes the rows of a run with these states to the front of the bytes.
    pub fn write(self, states: &[Vec<bool>], bytes: &mut [u8]) {
        let facts = states[0].len();
        let rows = self.kept(states).into_iter().chain(self.stretch(states));
        for (row, bytes) in rows.zip(bytes.chunks_exact_mut(facts)) {
            for (value, byte) in row.iter().flatten().zip(bytes) {
                *byte = u8::from(*value);
            }
        }
    }

    fn kept(self, states: &[Vec<bool>]) -> Vec<Row> {
        let late = usize::from(self == Layout::KeptOneLate);
        let numbers = (0..states.len()).step_by(STRETCH);
        let mut rows: Vec<Row> = numbers.map(|n| states.get(n + late).cloned()).collect();
        if self == Layout::LastKeptForgotten {
            rows.pop();
            rows.push(None);
        }
        rows
    }

    fn stretch(self, states: &[Vec<bool>]) -> Vec<Row> {
        let unused = match self {
            Layout::UnusedRowsStay => None,
            _ => Some(vec![false; states[0].len()]),
        };
        let mut rows = vec![unused; STRETCH];
        let count = match self {
            Layout::LastStretchStands => states.len(),
            _ => states.len().min(STRETCH),
        };
        for (n, state) in states[..count].iter().enumerate() {
            rows[n % STRETCH] = Some(state.clone());
        }
        rows
    }
}
