//! Problems and lists as trees, with nothing said about bytes.

use crate::version::Version;

/// A fact or its denial.
#[derive(Clone, Copy, Debug, PartialEq, Eq)]
pub struct Literal {
    pub fact: u8,
    pub denied: bool,
}

#[derive(Clone, Copy, Debug, PartialEq, Eq)]
pub enum Kind {
    All,
    Any,
}

impl Kind {
    pub fn other(self) -> Kind {
        match self {
            Kind::All => Kind::Any,
            Kind::Any => Kind::All,
        }
    }
}

#[derive(Clone, Debug, PartialEq, Eq)]
pub enum Formula {
    Literal(Literal),
    Group(Kind, Vec<Formula>),
}

impl Formula {
    pub fn fact(fact: u8) -> Formula {
        Formula::Literal(Literal {
            fact,
            denied: false,
        })
    }

    pub fn not(fact: u8) -> Formula {
        Formula::Literal(Literal { fact, denied: true })
    }

    pub fn all(members: impl IntoIterator<Item = Formula>) -> Formula {
        Formula::Group(Kind::All, members.into_iter().collect())
    }

    pub fn any(members: impl IntoIterator<Item = Formula>) -> Formula {
        Formula::Group(Kind::Any, members.into_iter().collect())
    }

    /// The empty "all".
    pub fn always() -> Formula {
        Formula::all([])
    }

    /// The empty "any".
    pub fn never() -> Formula {
        Formula::any([])
    }

    /// True in every state, but unknown as long as the fact is.
    pub fn either(fact: u8) -> Formula {
        Formula::any([Formula::fact(fact), Formula::not(fact)])
    }
}

#[derive(Clone, Debug, PartialEq, Eq)]
pub struct Effect {
    pub literal: Literal,
    pub condition: Formula,
}

impl Effect {
    pub fn sets(fact: u8, condition: Formula) -> Effect {
        let literal = Literal {
            fact,
            denied: false,
        };
        Effect { literal, condition }
    }

    pub fn clears(fact: u8, condition: Formula) -> Effect {
        let literal = Literal { fact, denied: true };
        Effect { literal, condition }
    }
}

#[derive(Clone, Debug, PartialEq, Eq)]
pub struct Action {
    pub precondition: Formula,
    pub effects: Vec<Effect>,
}

#[derive(Clone, Debug, PartialEq, Eq)]
pub struct Problem {
    pub version: Version,
    pub facts: u8,
    pub initial: Formula,
    pub goal: Formula,
    pub actions: Vec<Action>,
}

/// A line of a case list, whether its values are allowed or not.
#[derive(Clone, Copy, Debug, PartialEq, Eq)]
pub struct Line {
    pub kind: u8,
    pub k: u8,
    pub value: u64,
}
