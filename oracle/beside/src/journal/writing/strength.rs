//! Whether the random values tell each wrong rule for the writers.
use super::case::{Case, Handed};
use super::model::Model;
use super::wrong::Wrong;

/// So many random values, with what is due, to hold the wrong rules against.
pub fn cases(seed: u64, values: u64) -> Vec<Case> {
    (seed..seed + values).map(Case::new).collect()
}

/// Tells a wrong rule by what it returns or leaves. Says in how many of the values it shows, and the first of them.
pub fn catches(wrong: Wrong, says: &str, cases: &[Case]) -> bool {
    let model = Model::with(wrong);
    let other = |case: &Case| case.by(|value, out| model.write(value, out));
    let caught: Vec<(&Case, Handed)> =
        cases.iter().map(|case| (case, other(case))).filter(|(case, other)| *other != case.due).collect();
    let Some((first, other)) = caught.first() else {
        println!("  NOT CAUGHT {wrong:?}: {says}");
        return false;
    };
    println!("  {wrong:?}: {says}; shows in {} of {} values, first in value {}:", caught.len(), cases.len(), first.seed);
    first.show(other);
    true
}
