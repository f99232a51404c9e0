//! What the facts and actions of an example are called.

use crate::families::store::Store;
use crate::shell::Names;

pub fn names(facts: &[&str], actions: &[&str]) -> Names {
    let owned = |names: &[&str]| names.iter().map(|name| name.to_string()).collect();
    Names {
        facts: owned(facts),
        actions: owned(actions),
    }
}

/// Those of a store: as in `c0-in-a2`, `c0-loaded`, and `down-c0`.
pub fn of_store(store: Store) -> Names {
    let mut names = Names::default();
    for carriage in 0..store.carriages {
        let places = (0..store.aisles).map(|aisle| format!("c{carriage}-in-a{aisle}"));
        names.facts.extend(places);
    }
    let of_each = |word| (0..store.carriages).map(move |c| format!("{word}-c{c}"));
    let loads = (0..store.carriages).map(|c| format!("c{c}-loaded"));
    names.facts.extend(loads);
    let actions = ["down", "up", "unload"].into_iter().flat_map(of_each);
    names.actions.extend(actions);
    names
}
