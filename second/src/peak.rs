//! How many terms a step has before gathering: those without its gate, and all that the replacement made.

use crate::polynomial::Polynomial;
use crate::rules::PeakRules;

/// The terms that the step put in before like ones met. They were counted as they were put in, one by one: nothing is
/// worked out from how often the gate occurred.
pub fn made_in_step(rules: &PeakRules, gate: u32, before: &Polynomial, after: &Polynomial) -> u32 {
    let made = if !rules.is_counted_before_gathering {
        after.count()
    } else if !rules.idle_steps_have_the_terms_before && !before.mentions(gate) {
        0
    } else {
        // The document's rule; those above are bent ones.
        after.ungathered_count()
    };
    made as u32
}
