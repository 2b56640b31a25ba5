//! How often each variable occurs in the polynomial held.

use crate::judge::Run;
use crate::polynomial::{Polynomial, Set};
use crate::rules::OccurrenceRules;
use crate::table::Counts;

/// Entry v is the number of terms that hold v, entry 0 the number of all terms; all are 0 where nothing is held.
///
/// The numbers are counted at the end, from the polynomial: nothing is kept from step to step that could go wrong.
/// None are given where a bent rule leaves the words as they were.
pub fn occurrences_after(rules: &OccurrenceRules, counts: Counts, run: &Run) -> Option<Vec<u32>> {
    let counted = match (&run.held, &run.without_room) {
        (None, Some(_)) if !rules.full_start_is_written => return None,
        (Some(_), Some(_)) if !rules.full_step_is_written => return None,
        (None, Some(start)) if !rules.full_start_counts_nothing => Some(start),
        (Some(_), Some(next)) if !rules.full_step_counts_what_is_held => Some(next),
        // The document's rule; those above are bent ones.
        (held, _) => held.as_ref(),
    };
    Some(match counted {
        Some(polynomial) => occurrences(rules, counts, polynomial),
        None => vec![0; counts.m as usize + 1],
    })
}

fn occurrences(rules: &OccurrenceRules, counts: Counts, polynomial: &Polynomial) -> Vec<u32> {
    let mut numbers = vec![0; counts.m as usize + 1];
    for set in counted_sets(rules, polynomial) {
        numbers[0] += u32::from(rules.entry_0_has_all_terms);
        for &variable in set {
            numbers[usize::from(variable)] += 1;
        }
    }
    if !rules.inputs_are_counted {
        numbers[1..=counts.i as usize].fill(0);
    }
    if !rules.last_variable_is_counted {
        numbers[counts.m as usize] = 0;
    }
    numbers
}

/// The sets of the gathered terms, and by bent rules also some that gathering did away with.
fn counted_sets<'a>(rules: &OccurrenceRules, polynomial: &'a Polynomial) -> Vec<&'a Set> {
    let mut sets: Vec<&Set> = polynomial.sets().collect();
    if !rules.cancelled_terms_are_taken_off {
        sets.extend(polynomial.cancelled_sets());
    }
    if !rules.joined_terms_count_once {
        sets.extend(polynomial.joined_sets());
    }
    sets
}
