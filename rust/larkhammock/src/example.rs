//! A small problem to try the checker on.
//!
//! Facts 0, 1 and 2. At the start 0 or 1 is true, nobody knows which, and 2 is
//! not. The goal is 2. Action 0 sets 2 if 0 is true; action 1 sets 2 if 1 is.

/// The problem.
pub const PROBLEM: &[u8] = &[
    1, 0, 0, 0, 32, // version, length
    3, 2, // facts, actions
    0, 7, 0x80, 2, 0x81, 2, 0, 1, 0x42, // initial: all of (any of 0, 1), not 2
    0, 1, 2, // goal: 2
    0, 2, 0x80, 0, 1, 2, 0, 1, 0, // action 0: always applicable, sets 2 if 0
    0, 2, 0x80, 0, 1, 2, 0, 1, 1, // action 1: always applicable, sets 2 if 1
];

/// A plan for it: action 0, then action 1.
pub const PLAN: &[u8] = &[1, 0, 0, 0, 2, 0, 1];

/// The plan's certificate: 00? holds no start state, 01? and 1?? carry.
pub const LIST: &[u8] = &[
    1, 0, 0, 0, 24, // version, length
    0, 2, 0, 0, 0, 0, 0, 0, //
    1, 2, 0x40, 0, 0, 0, 0, 0, //
    1, 1, 0x80, 0, 0, 0, 0, 0,
];
