//! The versions of problems and lists.

use std::fmt;

/// The version of a problem and of its lists, with what a version has for itself. A
/// plan is of version 1 whatever its problem is.
///
/// ```
/// use larkhammock::{example, Version};
///
/// assert_eq!(Version::of_block(example::PROBLEM), Some(Version::V1));
/// assert_eq!(Version::V2.byte(), 2);
/// assert_eq!(Version::of_byte(3), None);
///
/// // All that the two differ in.
/// let list = [Version::V1, Version::V2].map(|version| {
///     (
///         version.most_facts(),   // facts of a problem
///         version.most_effects(), // effects of an action
///         version.state_bits(),   // bits of a state
///         version.line_bytes(),   // bytes of a line
///         version.most_lines(),   // lines of a list
///     )
/// });
/// assert_eq!(list, [(48, 96, 48, 8, 8_191), (64, 128, 64, 10, 6_553)]);
///
/// // They are constants, for arrays too.
/// let work = [0u8; Version::V2.longest_work()];
/// assert_eq!(work.len(), 257 * 64);
/// ```
#[derive(Clone, Copy, Debug, PartialEq, Eq, PartialOrd, Ord, Hash)]
#[non_exhaustive]
pub enum Version {
    /// 48 facts: a state has 48 bits.
    V1,
    /// 64 facts: a state has 64 bits.
    V2,
}

impl Version {
    /// The version that a block's first byte names.
    pub const fn of_byte(byte: u8) -> Option<Version> {
        match byte {
            1 => Some(Version::V1),
            2 => Some(Version::V2),
            _ => None,
        }
    }

    /// The version of a problem or a list, by its first byte.
    pub fn of_block(block: &[u8]) -> Option<Version> {
        Version::of_byte(*block.first()?)
    }

    /// The first byte of a block of this version.
    pub const fn byte(self) -> u8 {
        match self {
            Version::V1 => 1,
            Version::V2 => 2,
        }
    }

    /// The most facts of a problem.
    pub const fn most_facts(self) -> u64 {
        match self {
            Version::V1 => 48,
            Version::V2 => 64,
        }
    }

    /// The most effects of one action: two for each fact.
    pub const fn most_effects(self) -> u64 {
        2 * self.most_facts()
    }

    /// The bits of a state's number: one for each fact that there can be.
    pub const fn state_bits(self) -> u32 {
        match self {
            Version::V1 => 48,
            Version::V2 => 64,
        }
    }

    /// The bytes of a line: kind, k and a value of all of a state's bits.
    pub const fn line_bytes(self) -> usize {
        match self {
            Version::V1 => 8,
            Version::V2 => 10,
        }
    }

    /// The most lines of a list.
    pub const fn most_lines(self) -> usize {
        match self {
            Version::V1 => 8_191,
            Version::V2 => 6_553,
        }
    }

    /// The bytes of the longest list: a buffer of this length holds what
    /// [`write_list`](crate::write_list) writes for any plan.
    pub const fn longest_list(self) -> usize {
        5 + self.most_lines() * self.line_bytes()
    }

    /// The bytes of the longest run's states, those of 256 steps and the most
    /// facts: a work area of this length is enough for
    /// [`relevant_facts`](crate::relevant_facts) of any run.
    pub const fn longest_work(self) -> usize {
        (256 + 1) * self.most_facts() as usize
    }

    /// The bytes of a work area that is enough for
    /// [`relevant_facts_sparse`](crate::relevant_facts_sparse) of any run, one of 256
    /// steps and the most facts among them.
    pub const fn longest_sparse_work(self) -> usize {
        (256 / 16 + 17) * self.most_facts() as usize
    }

    /// The bit of a fact in a state's number. Fact 0 has the top one.
    pub(crate) const fn bit(self, fact: u64) -> u64 {
        1 << (self.state_bits() as u64 - 1 - fact)
    }

    /// The bits of the first so many facts.
    pub(crate) const fn bits(self, facts: u64) -> u64 {
        let mut bits = 0;
        let mut fact = 0;
        while fact < facts {
            bits |= self.bit(fact);
            fact += 1;
        }
        bits
    }
}

/// Its number.
impl fmt::Display for Version {
    fn fmt(&self, f: &mut fmt::Formatter<'_>) -> fmt::Result {
        write!(f, "{}", self.byte())
    }
}
