//! The problems that are measured, each with a right plan.

use conformance::encode;
use conformance::families::store::Store;
use conformance::families::{bombs, grid, sorting};
use conformance::model::{Action, Effect, Formula, Literal, Problem};
use conformance::version::{Version, VERSION_1};

pub struct Measured {
    pub name: String,
    pub tree: Problem,
    pub steps: Vec<u8>,
    pub problem: Vec<u8>,
    pub plan: Vec<u8>,
}

impl Measured {
    pub fn new(name: impl Into<String>, tree: Problem, steps: Vec<u8>) -> Measured {
        Measured {
            name: name.into(),
            problem: encode::problem(&tree),
            plan: encode::plan(&steps),
            tree,
            steps,
        }
    }

    /// The same problem as one of this version.
    pub fn in_version(&self, version: &Version) -> Measured {
        let tree = Problem {
            version: *version,
            ..self.tree.clone()
        };
        Measured::new(self.name.clone(), tree, self.steps.clone())
    }

    /// With a plan that lacks the last step, which is wrong.
    fn cut_short(&self) -> Measured {
        let steps = &self.steps[..self.steps.len() - 1];
        let name = format!("{}, a step short", self.name);
        Measured::new(name, self.tree.clone(), steps.to_vec())
    }

    /// With the facts from `first` on before all others: the same problem in
    /// another order.
    fn beginning_with(&self, first: u8, name: &str) -> Measured {
        let facts = self.tree.facts;
        let tree = renamed(&self.tree, &|fact| (fact + facts - first) % facts);
        let name = format!("{}, {name}", self.name);
        Measured::new(name, tree, self.steps.clone())
    }
}

pub fn all() -> Vec<Measured> {
    let mut all = Vec::from([8, 12, 16].map(sorting));
    all.extend([8, 16].map(grid));
    for (carriages, aisles) in [(4, 3), (4, 4), (5, 4), (6, 4)] {
        all.push(store(carriages, aisles));
    }
    all.push(bombs(46));
    all
}

/// The same with a right and a wrong plan each, two stores whose loads, which
/// decide nothing, come first, and one problem with nothing in it.
pub fn for_solvers() -> Vec<Measured> {
    let mut problems = all();
    let wrong: Vec<Measured> = problems.iter().map(Measured::cut_short).collect();
    problems.extend(wrong);
    for (carriages, aisles) in [(4, 3), (6, 4)] {
        let first_load = carriages * aisles;
        problems.push(store(carriages, aisles).beginning_with(first_load, "loads first"));
    }
    problems.push(trivial());
    problems
}

/// What is known is the goal, and there is nothing to do.
fn trivial() -> Measured {
    let tree = Problem {
        version: VERSION_1,
        facts: 1,
        initial: Formula::fact(0),
        goal: Formula::fact(0),
        actions: Vec::new(),
    };
    Measured::new("one fact", tree, Vec::new())
}

pub fn sorting(channels: u8) -> Measured {
    let name = format!("sorting {channels}");
    Measured::new(name, sorting::problem(channels), sorting::plan(channels))
}

pub fn grid(side: u8) -> Measured {
    let name = format!("grid {side}");
    Measured::new(name, grid::problem(side), grid::plan(side))
}

pub fn bombs(packages: u8) -> Measured {
    let name = format!("bombs {packages}");
    Measured::new(name, bombs::problem(packages), bombs::plan(packages))
}

pub fn store(carriages: u8, aisles: u8) -> Measured {
    let store = Store { carriages, aisles };
    let name = format!("store {carriages}×{aisles}");
    Measured::new(name, store.problem(), store.plan())
}

/// Of a store in which at most one carriage is out of its home.
pub fn store_with_one_away(carriages: u8, aisles: u8) -> Measured {
    let store = Store { carriages, aisles };
    let name = format!("store {carriages}×{aisles}, one away");
    Measured::new(name, store.problem_with_one_away(), store.plan())
}

/// A problem of few facts for its bytes: actions that set each of the facts, under
/// conditions of three literals, and preconditions that take the bytes that are left.
#[derive(Clone, Copy)]
pub struct Full {
    pub facts: u8,
    pub actions: usize,
    /// Of the initial formula and of the goal.
    pub members: usize,
    /// What each formula is.
    pub group: fn(Vec<Formula>) -> Formula,
}

impl Full {
    fn formula(&self, members: usize) -> Formula {
        let facts = (0..self.facts).cycle();
        (self.group)(facts.take(members).map(Formula::fact).collect())
    }

    pub fn of_length(&self, name: &str, length: usize) -> Measured {
        let effect = |fact| Effect::sets(fact, self.formula(3));
        let effects: Vec<Effect> = (0..self.facts).map(effect).collect();
        let precondition = |members| Action {
            precondition: self.formula(members),
            effects: effects.clone(),
        };
        let mut tree = Problem {
            version: VERSION_1,
            facts: self.facts,
            initial: self.formula(self.members),
            goal: self.formula(self.members),
            actions: vec![precondition(100); self.actions],
        };
        // A byte more for each member, up to 255 of them.
        let mut room = length - encode::problem(&tree).len();
        for action in &mut tree.actions {
            let more = room.min(155);
            *action = precondition(100 + more);
            room -= more;
        }
        let measured = Measured::new(name, tree, Vec::new());
        assert_eq!(measured.problem.len(), length, "{name}");
        measured
    }
}

/// The problem with each fact under another number.
fn renamed(problem: &Problem, to: &dyn Fn(u8) -> u8) -> Problem {
    let literal = |l: Literal| Literal {
        fact: to(l.fact),
        ..l
    };
    let effect = |e: &Effect| Effect {
        literal: literal(e.literal),
        condition: formula(&e.condition, &literal),
    };
    let action = |a: &Action| {
        let mut effects: Vec<Effect> = a.effects.iter().map(effect).collect();
        effects.sort_by_key(|e| encode::literal(e.literal));
        Action {
            precondition: formula(&a.precondition, &literal),
            effects,
        }
    };
    Problem {
        version: problem.version,
        facts: problem.facts,
        initial: formula(&problem.initial, &literal),
        goal: formula(&problem.goal, &literal),
        actions: problem.actions.iter().map(action).collect(),
    }
}

/// The formula with each literal replaced.
fn formula(tree: &Formula, literal: &dyn Fn(Literal) -> Literal) -> Formula {
    match tree {
        Formula::Literal(l) => Formula::Literal(literal(*l)),
        Formula::Group(kind, members) => {
            Formula::Group(*kind, members.iter().map(|m| formula(m, literal)).collect())
        }
    }
}
