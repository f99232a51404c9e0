//! Blocks to trees, each fault looked for in the specification's order.

use super::Refusal;
use crate::model::{Action, Effect, Formula, Kind, Line, Literal, Problem};
use crate::version::{
    Version, DEEPEST, DENIAL, HEADER, MOST_ACTIONS, MOST_FORMULA_BYTES, MOST_PLAN_BYTES,
    MOST_PROBLEM_BYTES, PLAN_VERSION, VERSIONS,
};

pub fn problem(block: &[u8]) -> Result<Problem, Refusal> {
    let header = Header::read(block, MOST_PROBLEM_BYTES, 10, &VERSIONS)?;
    header.body(13)?;
    let version = header.version;
    let mut reader = Reader {
        block,
        at: HEADER,
        version,
        facts: 0,
    };
    let facts = reader.byte()?;
    if !(1..=version.most_facts).contains(&facts) {
        return Refusal::at(15, reader.at - 1);
    }
    reader.facts = facts;
    let count = reader.byte()?;
    if usize::from(count) > MOST_ACTIONS {
        return Refusal::at(16, reader.at - 1);
    }
    let initial = reader.formula()?;
    let goal = reader.formula()?;
    let actions = (0..count)
        .map(|_| reader.action())
        .collect::<Result<_, _>>()?;
    if reader.at < block.len() {
        return Refusal::at(25, reader.at);
    }
    Ok(Problem {
        version,
        facts,
        initial,
        goal,
        actions,
    })
}

pub fn plan(block: &[u8], problem: &Problem) -> Result<Vec<u8>, Refusal> {
    let header = Header::read(block, MOST_PLAN_BYTES, 30, &[PLAN_VERSION])?;
    let steps = header.body(33)?;
    let strange = |step: &u8| usize::from(*step) >= problem.actions.len();
    match steps.iter().position(strange) {
        Some(step) => Refusal::at(34, HEADER + step),
        None => Ok(steps.to_vec()),
    }
}

/// The lines of a list, whose version must be this one, its problem's.
pub fn list(block: &[u8], version: &Version) -> Result<Vec<Line>, Refusal> {
    let header = Header::read(block, version.most_bytes(), 60, &VERSIONS)?;
    if header.version != *version {
        return Refusal::at(71, 0);
    }
    let body = header.body(63)?;
    if body.len() % version.line_bytes != 0 {
        return Refusal::at(64, block.len());
    }
    let line = |line: &[u8]| Line {
        kind: line[0],
        k: line[1],
        value: big_endian(&line[2..]),
    };
    Ok(body.chunks(version.line_bytes).map(line).collect())
}

/// The number of eight bytes or fewer.
fn big_endian(bytes: &[u8]) -> u64 {
    let mut word = 0u64.to_be_bytes();
    let unused = word.len() - bytes.len();
    word[unused..].copy_from_slice(bytes);
    u64::from_be_bytes(word)
}

/// A block's five bytes, and all that follows them.
struct Header<'a> {
    version: Version,
    length: u32,
    rest: &'a [u8],
}

impl<'a> Header<'a> {
    /// The version must be one of these. The three faults up to it are numbered
    /// in a row.
    fn read(
        block: &'a [u8],
        longest: usize,
        first: u64,
        versions: &[Version],
    ) -> Result<Header<'a>, Refusal> {
        if block.len() > longest {
            return Refusal::at(first, longest);
        }
        let Some((head, rest)) = block.split_first_chunk::<HEADER>() else {
            return Refusal::at(first + 1, block.len());
        };
        let [byte, length @ ..] = *head;
        let Some(version) = versions.iter().find(|version| version.byte == byte) else {
            return Refusal::at(first + 2, 0);
        };
        Ok(Header {
            version: *version,
            length: u32::from_be_bytes(length),
            rest,
        })
    }

    /// What follows, if the length field says as much.
    fn body(&self, number: u64) -> Result<&'a [u8], Refusal> {
        if self.length as usize != self.rest.len() {
            return Refusal::at(number, 1);
        }
        Ok(self.rest)
    }
}

struct Reader<'a> {
    block: &'a [u8],
    at: usize,
    version: Version,
    facts: u8,
}

/// A group that has begun and waits for members.
struct Open {
    kind: Kind,
    count: usize,
    members: Vec<Formula>,
}

impl Reader<'_> {
    fn byte(&mut self) -> Result<u8, Refusal> {
        self.byte_before(self.block.len(), 14)
    }

    /// The next byte, or a refusal at the end if there is none before it.
    fn byte_before(&mut self, end: usize, number: u64) -> Result<u8, Refusal> {
        if self.at >= end {
            return Refusal::at(number, end);
        }
        self.at += 1;
        Ok(self.block[self.at - 1])
    }

    fn literal(&self, byte: u8) -> Option<Literal> {
        let denied = byte >= DENIAL;
        let fact = if denied { byte - DENIAL } else { byte };
        (fact < self.facts).then_some(Literal { fact, denied })
    }

    fn action(&mut self) -> Result<Action, Refusal> {
        let precondition = self.formula()?;
        let count = self.byte()?;
        if count > self.version.most_effects {
            return Refusal::at(22, self.at - 1);
        }
        let mut effects = Vec::new();
        let mut before = None;
        for _ in 0..count {
            let byte = self.byte()?;
            let Some(literal) = self.literal(byte) else {
                return Refusal::at(23, self.at - 1);
            };
            if before >= Some(byte) {
                return Refusal::at(24, self.at - 1);
            }
            before = Some(byte);
            let condition = self.formula()?;
            effects.push(Effect { literal, condition });
        }
        Ok(Action {
            precondition,
            effects,
        })
    }

    fn formula(&mut self) -> Result<Formula, Refusal> {
        let start = self.at;
        let length = usize::from(self.byte()?) * 256 + usize::from(self.byte()?);
        if length == 0 || length > MOST_FORMULA_BYTES {
            return Refusal::at(17, start);
        }
        let end = self.at + length;
        if end > self.block.len() {
            return Refusal::at(14, self.block.len());
        }
        let whole = self.members(end)?;
        if self.at < end {
            return Refusal::at(21, self.at);
        }
        Ok(whole)
    }

    /// One whole formula, with a stack of the groups still open.
    fn members(&mut self, end: usize) -> Result<Formula, Refusal> {
        let mut open: Vec<Open> = Vec::new();
        loop {
            let place = self.at;
            let byte = self.byte_before(end, 20)?;
            let kind = match byte {
                0x80 => Some(Kind::All),
                0x81 => Some(Kind::Any),
                _ => None,
            };
            let mut done = None;
            if let Some(kind) = kind {
                if open.last().is_some_and(|outer| outer.kind == kind) {
                    return Refusal::at(18, place);
                }
                if open.len() == DEEPEST {
                    return Refusal::at(19, place);
                }
                let count = usize::from(self.byte_before(end, 20)?);
                open.push(Open {
                    kind,
                    count,
                    members: Vec::new(),
                });
            } else if let Some(literal) = self.literal(byte) {
                done = Some(Formula::Literal(literal));
            } else {
                return Refusal::at(18, place);
            }
            // A member may fill its group, and that one the next.
            loop {
                if let Some(member) = done.take() {
                    match open.last_mut() {
                        Some(group) => group.members.push(member),
                        None => return Ok(member),
                    }
                }
                match open.pop_if(|group| group.members.len() == group.count) {
                    Some(full) => done = Some(Formula::Group(full.kind, full.members)),
                    None => break,
                }
            }
        }
    }
}
