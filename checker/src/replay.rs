//! The steps behind a trail: "A foreground entry keeps its step", and "Demand 3 replays a decision with its atoms"
//! (the request "Decisions that bring bounds").

use crate::file::RunFile;
use crate::limits;
use crate::state::{Entry, State};
use crate::step::{Source, Step};

/// The steps that the entries of a trail keep, a decision's with the atoms that stand right behind it.
pub fn steps_behind(trail: &[Entry]) -> Vec<Step> {
    let mut steps = Vec::new();
    for (index, entry) in trail.iter().enumerate() {
        let Entry::Foreground(literal, origin) = entry else { continue };
        let (clause, number, instance) = (origin.clause, origin.literal, origin.instance.clone());
        steps.push(if origin.decision {
            let own = trail[index + 1..].iter().take_while(|entry| entry.literal().is_none());
            let atoms: Vec<Source> = own.filter_map(Entry::source).cloned().collect();
            let positive = literal.positive;
            Step::Decide { clause, literal: number, positive, instance, atoms }
        } else {
            Step::Propagate { clause, literal: number, instance }
        });
    }
    steps
}

/// A run file whose input clauses are all clauses that the state holds, with the steps behind its trail: they lead to
/// the same trail and level. None where a conflict stands, or where so many input clauses are no file's.
pub fn replayed(state: &State) -> Option<RunFile> {
    let clauses = [&state.input[..], &state.learned[..]].concat();
    (state.conflict.is_none() && clauses.len() <= limits::INPUT_CLAUSES).then(|| RunFile {
        version: state.version,
        constants: state.constants as u8,
        arities: state.arities.clone(),
        clauses,
        steps: steps_behind(&state.trail),
    })
}
