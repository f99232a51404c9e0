//! Names for facts and actions.

use std::collections::BTreeSet;

use super::Rng;
use crate::model::Problem;
use crate::shell::Names;

/// The words of a problem's text, of which none is a name.
const KEYWORDS: [&str; 12] = [
    "version", "fact", "start", "goal", "action", "needs", "sets", "clears", "if", "plan", "all",
    "any",
];

/// No letter of these ends a word. Some are written otherwise in JSON.
const LETTERS: &str = "aZ09-_.,:;+*/=<>&%$@!?~^|'`\"\\[]{}\u{1}\u{8}\u{b}\u{c}\u{1f}\u{7f}äß→𝄞";

/// A name for each fact and for each action. A fact may have the name of an action.
pub fn names(rng: &mut Rng, problem: &Problem) -> Names {
    Names {
        facts: distinct(rng, problem.facts.into()),
        actions: distinct(rng, problem.actions.len()),
    }
}

fn distinct(rng: &mut Rng, count: usize) -> Vec<String> {
    let mut taken = BTreeSet::new();
    let mut names = Vec::new();
    while names.len() < count {
        let name = name(rng, count);
        if taken.insert(name.clone()) {
            names.push(name);
        }
    }
    names
}

/// A word as people make them, the number of another thing, or letters of any kind.
fn name(rng: &mut Rng, count: usize) -> String {
    let name = match rng.below(6) {
        0 => rng.below(count + 2).to_string(),
        1 => format!("at-c{}", rng.below(2 * count)),
        2 => format!("{}{}", rng.pick(&KEYWORDS), rng.below(2 * count)),
        3 if rng.chance(1, 8) => "long-".repeat(rng.between(1, 50)) + &rng.below(count).to_string(),
        _ => letters(rng),
    };
    let is_name = !name.starts_with('!') && !KEYWORDS.contains(&&name[..]);
    if is_name {
        name
    } else {
        format!("_{name}")
    }
}

fn letters(rng: &mut Rng) -> String {
    let letters: Vec<char> = LETTERS.chars().collect();
    (0..rng.between(1, 9)).map(|_| rng.pick(&letters)).collect()
}
