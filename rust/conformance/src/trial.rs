//! The trial problem in each version, by its bytes, and what the desk program prints.

use crate::encode;
use crate::harness::Case;
use crate::version::Version;

/// The bytes of hex digits, with any spaces between.
pub fn hex(digits: &str) -> Vec<u8> {
    let digits: Vec<u8> = digits
        .chars()
        .filter_map(|c| c.to_digit(16))
        .map(|d| d as u8)
        .collect();
    digits
        .chunks(2)
        .map(|pair| pair[0] << 4 | pair[1])
        .collect()
}

/// P. Both versions have the same bytes but for the first.
pub fn problem(version: &Version) -> Vec<u8> {
    by_version(
        version,
        "01 00000020 03 02 0007 80 02 81 02 00 01 42 0001 02
         0002 80 00 01 02 0001 00 0002 80 00 01 02 0001 01",
        "02 00000020 03 02 0007 80 02 81 02 00 01 42 0001 02
         0002 80 00 01 02 0001 00 0002 80 00 01 02 0001 01",
    )
}

/// The list of P's plan 0, 1.
pub fn list(version: &Version) -> Vec<u8> {
    by_version(
        version,
        "01 00000018 00 02 000000000000 01 02 400000000000 01 01 800000000000",
        "02 0000001e 00 02 0000000000000000 01 02 4000000000000000 01 01 8000000000000000",
    )
}

/// The bytes of these digits of version 1, or of those of version 2.
pub fn by_version(version: &Version, first: &str, second: &str) -> Vec<u8> {
    hex(match version.byte {
        1 => first,
        _ => second,
    })
}

/// The print for P and its plan 0, 1, the same in both versions. A test holds the
/// real program to it.
pub const PRINT: &str = "\
right lines 3 visited 5
no-start 00?
carries 01?
carries 1??
";

/// P with this plan, all the grant there is and room for any list and run.
pub fn with_plan(version: &Version, steps: &[u8]) -> Case {
    Case {
        problem: problem(version),
        plan: encode::plan(steps),
        grant: u64::MAX,
        room: version.most_bytes(),
        work: version.most_work_bytes(),
        sparse_work: version.most_sparse_work_bytes(),
        shared_grant: u64::MAX,
        ..Case::default()
    }
}
