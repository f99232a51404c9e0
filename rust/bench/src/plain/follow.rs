//! Following a list: with a look at the case of each line in turn, and with a
//! look at the cases of 64 lines.

use std::iter;

use super::planes::{Lanes, Look, Planes, Room, Table, WIDTH};
use super::read::{self, refuse, Refusal, Task};

/// The lines that one look sees.
const LANES: usize = Lanes::BITS as usize;

/// The number of lines of a list that passes, with a look at each line.
pub fn follow_list(problem: &[u8], plan: &[u8], list: &[u8]) -> Result<usize, Refusal> {
    let task = Task::read(problem, plan)?;
    let lines = read::lines(list, task.version)?;
    match task.version.line {
        8 => by_line::<8>(&task, lines),
        _ => by_line::<10>(&task, lines),
    }
}

/// The same with a look at 64 lines.
pub fn follow_list_by_64(problem: &[u8], plan: &[u8], list: &[u8]) -> Result<usize, Refusal> {
    let task = Task::read(problem, plan)?;
    let lines = read::lines(list, task.version)?;
    match task.version.line {
        8 => by_64::<8>(&task, lines),
        _ => by_64::<10>(&task, lines),
    }
}

/// Lines of so many bytes.
fn by_line<const BYTES: usize>(task: &Task, lines: &[u8]) -> Result<usize, Refusal> {
    let (lines, _) = lines.as_chunks::<BYTES>();
    let mut room = Room::NEW;
    let mut follower = Follower::new(task, &mut room);
    for (place, line) in lines.iter().enumerate() {
        let followed = follower.follow_one(line);
        followed.or_else(|number| refuse(number, place))?;
    }
    follower.finish(lines.len())
}

fn by_64<const BYTES: usize>(task: &Task, lines: &[u8]) -> Result<usize, Refusal> {
    let (lines, _) = lines.as_chunks::<BYTES>();
    let mut room = Room::NEW;
    let mut follower = Follower::new(task, &mut room);
    for (i, some) in lines.chunks(LANES).enumerate() {
        let followed = follower.follow_many(some);
        followed.or_else(|(lane, number)| refuse(number, i * LANES + lane))?;
    }
    follower.finish(lines.len())
}

/// Where some lines end together: the number after all that they cover. It comes round
/// to zero after the highest state, and is then no line's beginning.
#[derive(Clone, Copy)]
struct End {
    number: u64,
    full: bool,
}

impl End {
    /// The end of no line.
    const FIRST: End = End {
        number: 0,
        full: false,
    };

    fn begins(self, value: u64) -> bool {
        value == self.number && !self.full
    }
}

/// A line without the fault of a form that is wrong.
#[derive(Clone, Copy)]
struct Line {
    carries: bool,
    k: u8,
    value: u64,
}

impl Line {
    /// A line over so many facts that begins where others end.
    fn read<const BYTES: usize>(bytes: &[u8; BYTES], facts: u8, end: End) -> Result<Line, u8> {
        let (kind, k) = (bytes[0], bytes[1]);
        let last = bytes.last_chunk().expect("a line has eight bytes or more");
        // In a line of eight, kind and k go over the top.
        let value = u64::from_be_bytes(*last) << (8 * (10 - BYTES));
        if kind > 1 {
            return Err(65);
        }
        if k > facts {
            return Err(66);
        }
        if value & !first(k) != 0 {
            return Err(67);
        }
        if !end.begins(value) {
            return Err(68);
        }
        let carries = kind == 1;
        Ok(Line { carries, k, value })
    }

    fn end(self) -> End {
        let states = 1u64.checked_shl(WIDTH - u32::from(self.k));
        let number = self.value.wrapping_add(states.unwrap_or(0));
        // It ends after where it begins, if it does not come round.
        let full = number == 0;
        End { number, full }
    }
}

struct Follower<'a> {
    look: Look<'a>,
    facts: u8,
    /// The case of the last line that was looked at alone, in every lane.
    case: Table,
    fixed: u64,
    value: u64,
    /// Where the lines so far end together.
    end: End,
}

impl<'a> Follower<'a> {
    fn new(task: &'a Task<'a>, room: &'a mut Room) -> Follower<'a> {
        Follower {
            look: Look::new(task, task.steps, room),
            facts: task.facts,
            case: Table::UNKNOWN,
            fixed: 0,
            value: 0,
            end: End::FIRST,
        }
    }

    /// Goes on to a line, or tells the number of its fault.
    fn follow_one<const BYTES: usize>(&mut self, bytes: &[u8; BYTES]) -> Result<(), u8> {
        let line = Line::read(bytes, self.facts, self.end)?;
        self.fix(first(line.k), line.value);
        let holds = if line.carries {
            self.look.carries(&self.case)
        } else {
            self.look.is_empty(&self.case)
        };
        if !holds {
            return Err(69);
        }
        self.end = line.end();
        Ok(())
    }

    /// Fixes these facts at this value, where the last case differs.
    fn fix(&mut self, fixed: u64, value: u64) {
        for fact in facts(self.fixed & !fixed) {
            self.case.put(fact, Planes::UNKNOWN);
        }
        for fact in facts(fixed & (!self.fixed | (value ^ self.value))) {
            self.case.put(fact, Planes::known(value & bit(fact) != 0));
        }
        self.fixed = fixed;
        self.value = value;
    }

    /// Goes on to the last of these lines, or tells the first that has a fault, and
    /// its number: a line's claim comes before the form of the next.
    fn follow_many<const BYTES: usize>(
        &mut self,
        lines: &[[u8; BYTES]],
    ) -> Result<(), (usize, u8)> {
        let (mut some, mut sure) = ([!0; LANES], [0; LANES]);
        let mut carried = 0;
        let mut sound = 0;
        let mut form = Ok(());
        for (lane, bytes) in lines.iter().enumerate() {
            match Line::read(bytes, self.facts, self.end) {
                Ok(line) => {
                    some[lane] = line.value | !first(line.k);
                    sure[lane] = line.value;
                    carried |= Lanes::from(line.carries) << lane;
                    self.end = line.end();
                    sound += 1;
                }
                Err(number) => {
                    form = Err((lane, number));
                    break;
                }
            }
        }
        let (empty, carries) = self.look.kinds(&mut self.cases(some, sure));
        let holds = carried & carries | !carried & empty;
        let first = holds.trailing_ones() as usize;
        if first < sound {
            return Err((first, 69));
        }
        form
    }

    /// Whether the lines end where all states do.
    fn finish(&self, lines: usize) -> Result<usize, Refusal> {
        if self.end.full {
            Ok(lines)
        } else {
            refuse(70, lines)
        }
    }

    /// The cases of the lanes, of whose values there is a word a lane.
    fn cases(&self, mut some: [u64; LANES], mut sure: [u64; LANES]) -> Table {
        transpose(&mut some);
        transpose(&mut sure);
        let mut cases = Table::UNKNOWN;
        for fact in 0..self.facts {
            let bit = bit(fact).ilog2() as usize;
            let (some, sure) = (some[bit], sure[bit]);
            cases.put(fact, Planes { some, sure });
        }
        cases
    }
}

fn bit(fact: u8) -> u64 {
    1 << (WIDTH - 1 - u32::from(fact))
}

/// The bits of the first k facts.
fn first(k: u8) -> u64 {
    !u64::MAX.checked_shr(k.into()).unwrap_or(0)
}

/// The facts of these bits, in order.
fn facts(mut bits: u64) -> impl Iterator<Item = u8> {
    iter::from_fn(move || {
        let top = bits.checked_ilog2()?;
        bits -= 1 << top;
        Some((WIDTH - 1 - top) as u8)
    })
}

/// Swaps bit j of word i with bit i of word j: halves first, and then the halves of
/// those.
fn transpose(words: &mut [u64; LANES]) {
    let mut half = LANES / 2;
    let mut low = u64::MAX >> half;
    while half > 0 {
        for i in (0..LANES).filter(|i| i & half == 0) {
            let swapped = (words[i] >> half ^ words[i + half]) & low;
            words[i] ^= swapped << half;
            words[i + half] ^= swapped;
        }
        half /= 2;
        low ^= low << half;
    }
}
