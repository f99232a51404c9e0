//! The numbers of the specification, written from it and taken from nowhere else:
//! a mistake of the library's must not be one here too.

/// The bytes of a block before its body: the version and the body's length.
pub const HEADER: usize = 5;

pub const MOST_PROBLEM_BYTES: usize = 32_768;
pub const MOST_ACTIONS: usize = 64;

/// A formula's bytes without its length.
pub const MOST_FORMULA_BYTES: usize = 1_024;

/// A group's members, whose count is one byte.
pub const MOST_MEMBERS: usize = 255;

/// Groups nest so deep at most, the outermost being 1.
pub const DEEPEST: usize = 8;

/// What a fact's literal byte is raised by to deny it.
pub const DENIAL: u8 = 64;

pub const MOST_STEPS: usize = 256;
pub const MOST_PLAN_BYTES: usize = HEADER + MOST_STEPS;

/// Where few states of a run are kept, it is those whose numbers are multiples of this,
/// with room for as many more.
pub const STRETCH: usize = 16;

/// The steps of the longest plans that a search may be asked for.
pub const LONGEST_SEARCHED: u64 = 4;

/// A search tries so many plans at most.
pub const MOST_SEARCHED: u64 = 1_000_000;

/// What one version of problems and lists has for itself.
#[derive(Clone, Copy, Debug, PartialEq, Eq)]
pub struct Version {
    /// The first byte of a block.
    pub byte: u8,
    pub most_facts: u8,
    /// Of one action.
    pub most_effects: u8,
    /// The bits of a state, of which fact 0 is the top one.
    pub width: u32,
    /// Kind, k and the bytes of the value.
    pub line_bytes: usize,
    /// Of one list.
    pub most_lines: usize,
}

pub const VERSION_1: Version = Version {
    byte: 1,
    most_facts: 48,
    most_effects: 96,
    width: 48,
    line_bytes: 8,
    most_lines: 8_191,
};

pub const VERSION_2: Version = Version {
    byte: 2,
    most_facts: 64,
    most_effects: 128,
    width: 64,
    line_bytes: 10,
    most_lines: 6_553,
};

/// Every version that a problem or a list can have.
pub const VERSIONS: [Version; 2] = [VERSION_1, VERSION_2];

/// The version of every plan, whatever its problem's is.
pub const PLAN_VERSION: Version = VERSION_1;

impl Version {
    /// The other of the two.
    pub fn other(&self) -> Version {
        match self.byte {
            1 => VERSION_2,
            _ => VERSION_1,
        }
    }

    /// The bytes of a line after kind and k.
    pub fn value_bytes(&self) -> usize {
        self.line_bytes - 2
    }

    /// The length of a list block with so many lines.
    pub fn list_bytes(&self, lines: usize) -> usize {
        HEADER + self.line_bytes * lines
    }

    /// The length of the longest list block.
    pub fn most_bytes(&self) -> usize {
        self.list_bytes(self.most_lines)
    }

    /// The length of the longest run's states, of one byte a fact each.
    pub fn most_work_bytes(&self) -> usize {
        (MOST_STEPS + 1) * usize::from(self.most_facts)
    }

    /// The length of the longest run's states, of one byte a fact each, where few are kept.
    pub fn most_sparse_work_bytes(&self) -> usize {
        (MOST_STEPS / STRETCH + 1 + STRETCH) * usize::from(self.most_facts)
    }

    /// How many numbers there are, which is where a full cover ends. No word
    /// holds it where a state is a whole word.
    pub fn numbers(&self) -> u128 {
        1 << self.width
    }

    /// How many of them a line covers that fixes the first `k` facts.
    pub fn covered(&self, k: u8) -> u128 {
        self.numbers() >> k
    }

    /// The state in which exactly this fact is true.
    pub fn bit(&self, fact: u8) -> u64 {
        1 << (self.width - 1 - u32::from(fact))
    }

    /// The state in which exactly these of the first facts are true.
    pub fn number(&self, values: &[bool]) -> u64 {
        (0..)
            .zip(values)
            .filter(|(_, value)| **value)
            .map(|(fact, _)| self.bit(fact))
            .sum()
    }

    /// The values of the first `facts` facts in a state.
    pub fn values(&self, state: u64, facts: u8) -> Vec<bool> {
        (0..facts).map(|fact| state & self.bit(fact) != 0).collect()
    }
}
