//! The lines of a list block.

use std::slice::ChunksExact;

use crate::{State, Version};

/// One line of a case list: a claim about every state whose first `k` facts
/// are as in `value`.
#[derive(Clone, Copy, Debug, PartialEq, Eq, Hash)]
pub struct Line {
    /// 0 claims that the case holds no start state, 1 that it carries: every
    /// start state in it reaches the goal.
    pub kind: u8,
    /// How many facts the case fixes, from fact 0 on.
    pub k: u8,
    /// The fixed facts, as a state of the most facts that its version allows: how
    /// many the problem has is not said in a list. In a sound line those past the
    /// first `k` are false.
    pub value: State,
}

impl Line {
    /// The values of the facts that the case fixes, fact 0 first.
    pub fn fixed(&self) -> impl Iterator<Item = bool> {
        self.value.values().take(self.k.into())
    }
}

/// An iterator over the lines of a list block.
///
/// It reads whole lines after the block's five header bytes, as long as the block's
/// version has them, and judges none of them: [`follow_list`](crate::follow_list)
/// does.
///
/// ```
/// use larkhammock::{example, Line, Lines, State, Version};
///
/// let lines: Vec<Line> = Lines::new(example::LIST).collect();
/// assert_eq!(lines.len(), 3);
/// let nothing = State::new(Version::V1, 48);
/// assert_eq!(lines[0], Line { kind: 0, k: 2, value: nothing });
/// assert!(lines[1].fixed().eq([false, true]));
/// assert!(lines[2].fixed().eq([true]));
/// ```
#[derive(Clone, Debug)]
pub struct Lines<'a> {
    version: Version,
    rest: ChunksExact<'a, u8>,
}

impl<'a> Lines<'a> {
    /// The lines of a block, header included. A block that is shorter than its
    /// header, or of no known version, has none.
    pub fn new(block: &'a [u8]) -> Self {
        let known = Version::of_block(block);
        let version = known.unwrap_or(Version::V1);
        let body = known.and_then(|_| block.get(5..)).unwrap_or_default();
        Lines {
            version,
            rest: body.chunks_exact(version.line_bytes()),
        }
    }
}

impl Iterator for Lines<'_> {
    type Item = Line;

    fn next(&mut self) -> Option<Line> {
        let [kind, k, bytes @ ..] = self.rest.next()? else {
            unreachable!("a line is longer than two bytes");
        };
        let number = bytes.iter().fold(0, |n, byte| n << 8 | u64::from(*byte));
        let value = State::of_number(self.version, self.version.most_facts(), number);
        Some(Line {
            kind: *kind,
            k: *k,
            value: value.expect("a number of so many bytes is a state of all facts"),
        })
    }

    fn size_hint(&self) -> (usize, Option<usize>) {
        self.rest.size_hint()
    }
}

impl ExactSizeIterator for Lines<'_> {}
