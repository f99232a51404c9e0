//! The counterexample encoding: a satisfying assignment is a start state from which
//! the plan fails. A step fails also where a fact has both conditions true.

use conformance::model::{Action, Formula, Kind, Literal, Problem};

/// A variable or its denial, as DIMACS has it.
pub type Lit = i32;

/// Clauses. Variable 1 is true.
pub struct Cnf {
    pub variables: Lit,
    pub clauses: Vec<Vec<Lit>>,
}

const TRUE: Lit = 1;

/// The clauses, and the variable of each fact in the start state.
pub struct Encoded {
    pub cnf: Cnf,
    pub start: Vec<Lit>,
}

pub fn encode(problem: &Problem, steps: &[u8]) -> Encoded {
    let mut cnf = Cnf {
        variables: TRUE,
        clauses: vec![vec![TRUE]],
    };
    let start: Vec<Lit> = (0..problem.facts).map(|_| cnf.variable()).collect();
    let initial = cnf.formula(&problem.initial, &start);
    cnf.clauses.push(vec![initial]);
    // Either the final state is not a goal state, or some action is not applicable.
    let mut fails = Vec::new();
    let mut state = start.clone();
    for step in steps {
        let action = &problem.actions[usize::from(*step)];
        fails.push(-cnf.formula(&action.precondition, &state));
        let conditions = cnf.conditions(action, &state);
        fails.extend(cnf.conflicts(&conditions));
        state = cnf.after(&conditions, &state);
    }
    fails.push(-cnf.formula(&problem.goal, &state));
    cnf.clauses.push(fails);
    Encoded { cnf, start }
}

impl Cnf {
    fn variable(&mut self) -> Lit {
        self.variables += 1;
        self.variables
    }

    /// A literal that is true where the formula is.
    fn formula(&mut self, formula: &Formula, state: &[Lit]) -> Lit {
        match formula {
            Formula::Literal(Literal { fact, denied }) => {
                let value = state[usize::from(*fact)];
                if *denied {
                    -value
                } else {
                    value
                }
            }
            Formula::Group(kind, members) => {
                let members = members.iter().map(|m| self.formula(m, state)).collect();
                match kind {
                    Kind::All => self.all(members),
                    Kind::Any => self.any(members),
                }
            }
        }
    }

    fn all(&mut self, mut members: Vec<Lit>) -> Lit {
        members.retain(|m| *m != TRUE);
        match members[..] {
            [] => TRUE,
            _ if members.contains(&-TRUE) => -TRUE,
            [one] => one,
            _ => {
                let all = self.variable();
                for member in &members {
                    self.clauses.push(vec![-all, *member]);
                }
                members.iter_mut().for_each(|m| *m = -*m);
                members.push(all);
                self.clauses.push(members);
                all
            }
        }
    }

    fn any(&mut self, members: Vec<Lit>) -> Lit {
        -self.all(members.into_iter().map(|m| -m).collect())
    }

    /// The set and the clear condition of each fact.
    fn conditions(&mut self, action: &Action, state: &[Lit]) -> Vec<[Lit; 2]> {
        let mut conditions = vec![[-TRUE; 2]; state.len()];
        for effect in &action.effects {
            let Literal { fact, denied } = effect.literal;
            let condition = self.formula(&effect.condition, state);
            conditions[usize::from(fact)][usize::from(denied)] = condition;
        }
        conditions
    }

    /// A literal for each fact that may be told both: true where it is.
    fn conflicts(&mut self, conditions: &[[Lit; 2]]) -> Vec<Lit> {
        let both = conditions.iter().map(|pair| self.all(pair.to_vec()));
        both.filter(|conflict| *conflict != -TRUE).collect()
    }

    /// A fact is true after the action where it is told so, or was true and is not
    /// told otherwise. One that the action does not name keeps its variable.
    fn after(&mut self, conditions: &[[Lit; 2]], state: &[Lit]) -> Vec<Lit> {
        let pairs = state.iter().zip(conditions);
        pairs
            .map(|(before, [set, clear])| {
                let kept = self.all(vec![*before, -clear]);
                self.any(vec![*set, kept])
            })
            .collect()
    }

    pub fn dimacs(&self) -> String {
        let mut text = format!("p cnf {} {}\n", self.variables, self.clauses.len());
        for clause in &self.clauses {
            for literal in clause {
                text += &format!("{literal} ");
            }
            text += "0\n";
        }
        text
    }
}
