//! Carriages in a store after a stoppage: each is in one of the aisles, nobody
//! knows in which, and nobody knows which carriages are loaded. Carriage c must
//! end in its home, aisle c, and past the last aisle from aisle 0 on again.

use super::{action, exactly_one, shift, shift_back, times, version_for};
use crate::model::{Action, Effect, Formula, Problem};

#[derive(Clone, Copy)]
pub struct Store {
    pub carriages: u8,
    pub aisles: u8,
}

impl Store {
    /// The facts "carriage c is in aisle 0, 1, ..".
    fn places(self, carriage: u8) -> Vec<u8> {
        let first = carriage * self.aisles;
        (first..first + self.aisles).collect()
    }

    /// The loads come after all aisles: no case needs to fix them.
    fn load(self, carriage: u8) -> u8 {
        self.carriages * self.aisles + carriage
    }

    fn home(self, carriage: u8) -> u8 {
        carriage % self.aisles
    }

    pub fn down(self, carriage: u8) -> u8 {
        carriage
    }

    pub fn up(self, carriage: u8) -> u8 {
        self.carriages + carriage
    }

    pub fn unload(self, carriage: u8) -> u8 {
        2 * self.carriages + carriage
    }

    /// A loaded carriage must not move.
    fn moves(self, carriage: u8, effects: Vec<Effect>) -> Action {
        Action {
            precondition: Formula::not(self.load(carriage)),
            ..action(effects)
        }
    }

    fn unloads(self, carriage: u8) -> Action {
        action(vec![Effect::clears(self.load(carriage), Formula::always())])
    }

    /// The fact "carriage c is in its home".
    fn at_home(self, carriage: u8) -> u8 {
        self.places(carriage)[usize::from(self.home(carriage))]
    }

    /// The carriage is in its home and nowhere else.
    fn is_home(self, carriage: u8) -> Vec<Formula> {
        let home = self.at_home(carriage);
        let place = |fact| {
            if fact == home {
                Formula::fact(fact)
            } else {
                Formula::not(fact)
            }
        };
        self.places(carriage).into_iter().map(place).collect()
    }

    pub fn problem(self) -> Problem {
        let each = || 0..self.carriages;
        let mut actions = Vec::new();
        actions.extend(each().map(|c| self.moves(c, shift_back(&self.places(c)))));
        actions.extend(each().map(|c| self.moves(c, shift(&self.places(c)))));
        actions.extend(each().map(|c| self.unloads(c)));
        let facts = self.carriages * (self.aisles + 1);
        Problem {
            version: version_for(facts),
            facts,
            initial: Formula::all(each().flat_map(|c| exactly_one(&self.places(c)))),
            goal: Formula::all(each().flat_map(|c| self.is_home(c))),
            actions,
        }
    }

    /// The same store when at most one carriage is out of its home. Nobody knows
    /// which, nor where that one is.
    pub fn problem_with_one_away(self) -> Problem {
        let each = || 0..self.carriages;
        let at_home = |c| Formula::fact(self.at_home(c));
        let mut start: Vec<Formula> = each().flat_map(|c| exactly_one(&self.places(c))).collect();
        for one in each() {
            let others = one + 1..self.carriages;
            start.extend(others.map(|other| Formula::any([at_home(one), at_home(other)])));
        }
        Problem {
            initial: Formula::all(start),
            ..self.problem()
        }
    }

    /// To one end from anywhere, and from there home.
    pub fn moves_home(self, carriage: u8) -> Vec<u8> {
        let last = self.aisles - 1;
        let home = self.home(carriage);
        if home == last {
            return times(self.up(carriage), last);
        }
        let (down, up) = (self.down(carriage), self.up(carriage));
        [times(down, last), times(up, home)].concat()
    }

    /// Unload all, then bring all home.
    pub fn plan(self) -> Vec<u8> {
        let mut steps: Vec<u8> = (0..self.carriages).map(|c| self.unload(c)).collect();
        steps.extend((0..self.carriages).flat_map(|c| self.moves_home(c)));
        steps
    }
}
