//! Faults and oddities put into models: every error and every refusal that an author can bring about.

// Every fault has the same type, whether it adds models or not.
#![allow(clippy::ptr_arg)]

mod errors;
mod refusals;
mod shapes;

use crate::prng::Random;
use treefile::source::Model;

/// Changes one of the models, the one with this number mostly.
type Fault = fn(&mut Random, &mut Vec<Model>, usize);

/// Every fault with its weight.
const FAULTS: [(usize, Fault); 40] = [
    (4, errors::unknown_domain),
    (4, errors::reserved_unknown),
    (4, errors::missing_submodel),
    (4, errors::positional_after_keyword),
    (3, errors::name_not_found),
    (2, errors::rate_of_no_variable),
    (4, errors::wrong_count),
    (4, errors::keyword_in_built_in),
    (4, errors::wrong_variable_count),
    (4, errors::no_such_dependent),
    (4, errors::positional_after_named),
    (3, errors::no_function),
    (5, errors::other_start),
    (4, errors::rate_without_time),
    (3, errors::statement_removed),
    (2, errors::state_added),
    (4, errors::equation_added),
    (5, errors::condition_removed),
    (8, errors::condition_added),
    (2, errors::state_holds_a_strange_rate),
    (1, refusals::lists_itself),
    (2, refusals::lists_itself_reserved),
    (1, refusals::model_cycle),
    (1, refusals::too_many_positional),
    (1, refusals::short_left),
    (3, shapes::declared_twice),
    (4, shapes::time_declared),
    (3, shapes::time_with_dependents),
    (4, shapes::dependency_cycle),
    (2, shapes::dependent_added),
    (3, shapes::statement_repeated),
    (3, shapes::statements_swapped),
    (2, shapes::model_of_the_same_name),
    (3, shapes::number_changed),
    (2, shapes::sign_before_start),
    (2, shapes::unknown_keyword),
    (2, shapes::keyword_replaces_positional),
    (1, shapes::expression_exchanged),
    (3, shapes::arguments_swapped),
    (3, shapes::called_again),
];

/// Puts so many random faults into models of which one is the root.
pub fn put(random: &mut Random, models: &mut Vec<Model>, root: usize, count: usize) {
    for _ in 0..count {
        let fault = random.weighted(&FAULTS);
        let at = if random.chance(70) {
            root
        } else {
            random.below(models.len())
        };
        fault(random, models, at);
    }
}
