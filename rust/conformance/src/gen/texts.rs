//! Texts with something wrong in them.

use super::Rng;

/// What a text is damaged with, beside its own words.
const WORDS: [&str; 16] = [
    "version", "fact", "start", "goal", "action", "needs", "sets", "clears", "if", "plan", "all(",
    "any(", ")", "(", "!", "#",
];

/// A text with words dropped, doubled or exchanged, or with bytes that nobody meant.
pub fn damaged_text(rng: &mut Rng, text: &str) -> Vec<u8> {
    let mut bytes = text.as_bytes().to_vec();
    for _ in 0..rng.between(1, 2) {
        bytes = match rng.below(4) {
            0 => scattered(rng, bytes),
            _ => reworded(rng, &bytes),
        };
    }
    bytes
}

/// Bytes that nobody meant, and now and then words among them.
pub fn arbitrary_text(rng: &mut Rng) -> Vec<u8> {
    let mut text = Vec::new();
    for _ in 0..rng.below(40) {
        match rng.below(3) {
            0 => text.push(rng.byte()),
            _ => text.extend(rng.pick(&WORDS).bytes()),
        }
        text.extend(rng.pick(&["", " ", "\n", " a ", " 0 "]).bytes());
    }
    text
}

/// A byte lost, added or changed.
fn scattered(rng: &mut Rng, mut bytes: Vec<u8>) -> Vec<u8> {
    let at = rng.below(bytes.len().max(1));
    match rng.below(4) {
        _ if bytes.is_empty() => bytes.push(rng.byte()),
        0 => bytes.truncate(at),
        1 => {
            bytes.remove(at);
        }
        2 => bytes.insert(at, rng.byte()),
        _ => bytes[at] = rng.byte(),
    }
    bytes
}

/// One word dropped, doubled, or exchanged for another.
fn reworded(rng: &mut Rng, text: &[u8]) -> Vec<u8> {
    let mut lines: Vec<Vec<&[u8]>> = text
        .split(|byte| *byte == b'\n')
        .map(|line| line.split(|byte| *byte == b' ').collect())
        .collect();
    let row = rng.below(lines.len());
    let column = rng.below(lines[row].len());
    let other = {
        let words = &lines[rng.below(lines.len())];
        words[rng.below(words.len())]
    };
    match rng.below(6) {
        0 => {
            lines[row].remove(column);
        }
        1 => {
            let word = lines[row][column];
            lines[row].insert(column, word);
        }
        2 => lines[row][column] = other,
        3 => lines[row][column] = rng.pick(&WORDS).as_bytes(),
        4 => {
            lines.remove(row);
        }
        _ => {
            let line = lines[row].clone();
            lines.insert(row, line);
        }
    }
    let lines: Vec<Vec<u8>> = lines.iter().map(|words| words.join(&b' ')).collect();
    lines.join(&b'\n')
}
