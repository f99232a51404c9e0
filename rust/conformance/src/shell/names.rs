//! How facts and actions are spoken of.

use crate::model::{Formula, Kind, Literal};

/// The names of all facts and all actions; or none, and everything is known by its
/// number.
#[derive(Clone, Debug, Default, PartialEq, Eq)]
pub struct Names {
    pub facts: Vec<String>,
    pub actions: Vec<String>,
}

impl Names {
    /// No names.
    pub const NUMBERS: Names = Names {
        facts: Vec::new(),
        actions: Vec::new(),
    };

    pub fn fact(&self, fact: u8) -> String {
        name_of(&self.facts, fact)
    }

    pub fn action(&self, action: u8) -> String {
        name_of(&self.actions, action)
    }

    /// A mark for each fact, or the names of the true ones where facts have names.
    pub fn state(&self, values: &[bool]) -> String {
        if self.facts.is_empty() {
            let mark = |value: &bool| if *value { '1' } else { '0' };
            return values.iter().map(mark).collect();
        }
        let facts = (0..).zip(values).filter(|(_, value)| **value);
        let names: String = facts.map(|(f, _)| format!(" {}", self.fact(f))).collect();
        format!("{{{names} }}")
    }

    /// As in `all( a !b any( c d ) )`.
    pub fn formula(&self, formula: &Formula) -> String {
        match formula {
            Formula::Literal(literal) => self.literal(literal),
            Formula::Group(kind, members) => {
                let word = match kind {
                    Kind::All => "all",
                    Kind::Any => "any",
                };
                let members: String = members
                    .iter()
                    .map(|member| format!(" {}", self.formula(member)))
                    .collect();
                format!("{word}({members} )")
            }
        }
    }

    fn literal(&self, literal: &Literal) -> String {
        let mark = if literal.denied { "!" } else { "" };
        format!("{mark}{}", self.fact(literal.fact))
    }

    /// A file that gives these names: a line a fact, and a line an action.
    pub fn file(&self) -> String {
        let facts = self.facts.iter().map(|name| format!("fact {name}\n"));
        let actions = self.actions.iter().map(|name| format!("action {name}\n"));
        facts.chain(actions).collect()
    }
}

fn name_of(names: &[String], number: u8) -> String {
    let name = names.get(usize::from(number));
    name.cloned().unwrap_or_else(|| number.to_string())
}
