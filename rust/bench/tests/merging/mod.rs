//! The library's merging beside that in plain Rust.

use bench::plain::merge::merge;
use bench::plain::read::Refusal;
use bench::problems::{bombs, grid, sorting, store, Full, Measured};
use conformance::families::idle;
use conformance::gen::{formula_of_size, Rng};
use conformance::model::{Action, Formula, Problem};
use conformance::version::{Version, MOST_ACTIONS, MOST_PROBLEM_BYTES, VERSION_1};
use larkhammock::raw;

/// The bytes that are lent for the block and for the table.
type Rooms = (usize, usize);

/// Makes a group.
type Group = fn(Vec<Formula>) -> Formula;

/// What a buffer holds before a call.
const BEFORE: u8 = 0xa5;

/// What the halls need, or the most that any do where these do not fit together.
fn needed(first: &[u8], second: &[u8]) -> Rooms {
    let (out, table) = (&mut [0; MOST_PROBLEM_BYTES], &mut [0; MOST_ACTIONS]);
    merge(first, second, out, table).unwrap_or((MOST_PROBLEM_BYTES, MOST_ACTIONS))
}

/// Each of both as long as it needs to be, one less and a few more, the other being long
/// enough.
pub fn near(first: &[u8], second: &[u8]) -> Vec<Rooms> {
    let (out, table) = needed(first, second);
    let (short, few) = (out - 1, table.saturating_sub(1));
    vec![
        (out, table),
        (short, table),
        (out, few),
        (short, few),
        (out + 7, table + 3),
    ]
}

/// One of these, in half of all cases the first.
pub fn rooms(rng: &mut Rng, first: &[u8], second: &[u8]) -> Rooms {
    let near = near(first, second);
    if rng.chance(1, 2) {
        near[0]
    } else {
        rng.pick(&near)
    }
}

/// Holds plain Rust to the library, every byte of both buffers with it; the number of
/// their refusal, or else 0.
#[track_caller]
pub fn alike(first: &[u8], second: &[u8], (out, table): Rooms, what: &str) -> u64 {
    let buffers = || (vec![BEFORE; out], vec![BEFORE; table]);
    let (mut block, mut numbers) = buffers();
    let told = raw::merge(first, second, &mut block, &mut numbers).word;
    let (mut plain, mut in_turn) = buffers();
    let (words, refused) = match merge(first, second, &mut plain, &mut in_turn) {
        Ok((length, count)) => ([1, length as u64, count as u64, 0, 0, 0, 0, 0], 0),
        Err(Refusal { number, place }) => {
            assert!((&plain, &in_turn) == (&buffers().0, &buffers().1), "{what}");
            let number = u64::from(number);
            ([0, number, place as u64, 0, 0, 0, 0, 0], number)
        }
    };
    assert_eq!(told, words, "{what}");
    assert!(block == plain && numbers == in_turn, "{what}");
    refused
}

/// Some that fit together, and some that do not: too many facts, actions or bytes, and
/// formulas with too many members, bytes or groups in one another.
pub fn halls(version: &Version) -> Vec<Measured> {
    let mut halls = vec![
        store(2, 2),
        store(6, 4),
        bombs(30),
        bombs(46),
        grid(8),
        grid(16),
        sorting(12),
    ];
    let bytes = MOST_PROBLEM_BYTES / 2;
    let (all, any): (Group, Group) = (Formula::all, Formula::any);
    for (kind, group, other) in [("all", all, any), ("any", any, all)] {
        for more in [0, 7, 8, 200] {
            let full = Full {
                facts: 32,
                actions: 32,
                members: 100,
                group,
            };
            halls.push(full.of_length(&format!("{kind}, {more} more"), bytes + more));
        }
        let literals = |count| group(vec![Formula::fact(0); count]);
        for members in [0, 1, 127, 128, 254, 255] {
            halls.push(with(&format!("{members} in {kind}"), literals(members)));
        }
        let mut nested = literals(1);
        for depth in 2..=8 {
            let outer = if depth % 2 == 1 { group } else { other };
            nested = outer(vec![nested]);
            halls.push(with(&format!("{kind}, {depth} deep"), nested.clone()));
        }
    }
    for count in [31, 32, 33] {
        let of_facts = idle(VERSION_1, count);
        halls.push(Measured::new(
            format!("{count} facts"),
            of_facts,
            Vec::new(),
        ));
        halls.push(of_actions(count));
    }
    for size in [1, 2, 512, 513, 514, 1_022, 1_024] {
        halls.push(with(&format!("{size} bytes"), formula_of_size(size)));
    }
    halls.iter().map(|hall| hall.in_version(version)).collect()
}

/// A hall with nothing to do and this goal.
fn with(name: &str, goal: Formula) -> Measured {
    let idle = idle(VERSION_1, 2);
    Measured::new(name, Problem { goal, ..idle }, Vec::new())
}

/// A hall with so many actions that do nothing.
fn of_actions(count: u8) -> Measured {
    let action = Action {
        precondition: Formula::always(),
        effects: Vec::new(),
    };
    let actions = vec![action; count.into()];
    let idle = idle(VERSION_1, 2);
    Measured::new(
        format!("{count} actions"),
        Problem { actions, ..idle },
        Vec::new(),
    )
}
