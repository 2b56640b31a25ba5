//! The named mutants: copies of the document's rules with exactly one of them bent.
//!
//! A name begins with the functions whose answers or words the bent rule must
//! change on some case.

use crate::rules::Rules;

type Mutant = (&'static str, Rules);

impl Rules {
    pub fn mutants() -> Vec<Mutant> {
        let mut all = of_counts();
        all.extend(of_text());
        all.extend(of_table());
        all.extend(of_cells());
        all.extend(of_adding());
        all.extend(of_checks());
        all.extend(of_polynomial());
        all.extend(of_lent_words());
        all.extend(of_occurrences());
        all.extend(of_peak());
        all.extend(of_desk());
        all
    }

    /// The mutants whose name begins with the function.
    pub fn mutants_of(function: &str) -> Vec<Mutant> {
        let mut mutants = Rules::mutants();
        mutants.retain(|(name, _)| {
            let functions = name.split(": ").next().unwrap_or(name);
            functions.split(", ").any(|other| other == function)
        });
        mutants
    }
}

fn bend(name: &'static str, change: fn(&mut Rules)) -> Mutant {
    let mut bent = Rules::of_document();
    change(&mut bent);
    (name, bent)
}

#[rustfmt::skip]
fn of_counts() -> Vec<Mutant> {
    vec![
        bend("read, evaluate, judge: M 1,024 taken", |r| r.counts.most_variables = 1_024),
        bend("read, evaluate, judge: I 66 taken", |r| r.counts.most_inputs = 66),
        bend("read, evaluate, judge: I 0 taken", |r| r.counts.least_inputs = 0),
        bend("read, evaluate, judge: odd I taken", |r| r.counts.inputs_are_even = false),
        bend("read, evaluate, judge: O 64 refused", |r| r.counts.most_outputs = 63),
        bend("read, evaluate, judge: L 1 taken", |r| r.counts.most_latches = 1),
        bend("read, evaluate, judge: M above I + A taken", |r| r.counts.sum_is_exact = false),
    ]
}

#[rustfmt::skip]
fn of_text() -> Vec<Mutant> {
    vec![
        bend("read: five digits taken", |r| r.text.most_digits = 5),
        bend("read: leading zero taken", |r| r.text.leading_zero_is_wrong = false),
        bend("read: last line end may be missing", |r| r.text.last_line_needs_its_end = false),
        bend("read: input lines in any sequence", |r| r.text.input_lines_are_in_sequence = false),
        bend("read: left side of a gate ignored", |r| r.text.left_side_is_in_sequence = false),
        bend("read: bytes after the end taken", |r| r.text.nothing_follows = false),
        bend("read: table length unchecked", |r| r.text.table_length_is_checked = false),
        bend("read: 3 checked after the lines", |r| r.text.table_comes_before_lines = false),
        bend("read: refused text leaves words", |r| r.text.refusal_writes_nothing = false),
        bend("read: words past the table zeroed", |r| r.text.words_past_are_kept = false),
    ]
}

#[rustfmt::skip]
fn of_table() -> Vec<Mutant> {
    vec![
        bend("read, evaluate, judge: rhs0 < rhs1 taken", |r| r.table.gate_literals_fall = false),
        bend("read, evaluate, judge: gate may read itself", |r| r.table.gate_reads_below_itself = false),
        bend("read, evaluate, judge: output 2M + 1 refused", |r| r.table.last_inverse_is_an_output = false),
        bend("evaluate: operand bit n leaks", |r| r.table.operand_bits_from_n_are_absent = false),
        bend("evaluate: a and b swapped", |r| r.table.first_operand_comes_first = false),
        bend("evaluate: output order reversed", |r| r.table.output_0_is_lowest = false),
        bend("evaluate: gate inverters ignored", |r| r.table.gate_inverters_count = false),
        bend("evaluate: output inverters ignored", |r| r.table.output_inverters_count = false),
        bend("evaluate: literal 1 is false", |r| r.table.literal_1_is_true = false),
    ]
}

#[rustfmt::skip]
fn of_cells() -> Vec<Mutant> {
    vec![
        bend("evaluate, judge: a table of cells measured by O + 2A", |r| r.cells.record_has_four_words = false),
        bend("evaluate, judge: byte 256 taken", |r| r.cells.most_byte = 256),
        bend("evaluate, judge: byte 255 refused", |r| r.cells.most_byte = 254),
        bend("evaluate, judge: cell may read itself", |r| r.cells.cell_reads_below_itself = false),
        bend("evaluate, judge: x3 is the lowest bit of the index", |r| r.cells.first_variable_is_lowest = false),
        bend("evaluate, judge: constant false is true", |r| r.cells.variable_0_is_false = false),
        bend("judge: last coefficient of byte 150 is -4", |r| r.cells.last_of_parity_is_plus = false),
        bend("judge: x times x not joined in a cell", |r| r.cells.squares_join = false),
        bend("judge: a term of a cell that vanishes is kept", |r| r.cells.vanished_terms_go = false),
        bend("judge: scratch of cells measured by 4T", |r| r.cells.scratch_is_eightfold = false),
    ]
}

#[rustfmt::skip]
fn of_adding() -> Vec<Mutant> {
    vec![
        bend("judge: n is I/2 for m and ms", |r| r.adding.n_is_a_quarter = false),
        bend("judge: I 6 taken for m and ms", |r| r.adding.inputs_come_by_fours = false),
        bend("judge: c before b", |r| r.adding.b_comes_before_c = false),
        bend("judge: c has n bits only", |r| r.adding.c_has_2n_bits = false),
        bend("judge: c left out of the start", |r| r.adding.c_is_in_the_start = false),
        bend("judge: sign of c spread over the whole wanted word", |r| r.adding.sum_has_l_bits = false),
        bend("judge: ms read as m", |r| r.adding.ms_has_signs = false),
        bend("judge: ones of c not counted", |r| r.adding.ones_of_c_count = false),
        bend("judge: smallest by c below a and b", |r| r.adding.c_is_above_b = false),
    ]
}

#[rustfmt::skip]
fn of_checks() -> Vec<Mutant> {
    vec![
        bend("judge: T 127 taken", |r| r.judging.least_limit = 127),
        bend("judge: T 16,385 taken", |r| r.judging.most_limit = 16_385),
        bend("judge: 4,097 steps taken", |r| r.judging.most_steps = 4_097),
        bend("judge: kind taken modulo 256", |r| r.judging.kind_is_32_bits = false),
        bend("judge: 10 and 11 swapped", |r| r.judging.limit_comes_before_order = false),
        bend("judge: 8 and 9 swapped", |r| r.judging.soundness_comes_before_kind = false),
        bend("judge: log not measured", |r| r.judging.log_is_measured = false),
    ]
}

#[rustfmt::skip]
fn of_polynomial() -> Vec<Mutant> {
    vec![
        bend("judge: coefficients modulo 2^64", |r| r.judging.coefficients_have_l_bits = false),
        bend("judge: x times x not joined", |r| r.judging.squares_join = false),
        bend("judge: sign of the signed term forgotten", |r| r.judging.signed_terms_have_signs = false),
        bend("judge: R counted before gathering", |r| r.judging.gathered_terms_are_counted = false),
        bend("judge: exactly T terms is no room", |r| r.judging.exactly_the_limit_is_room = false),
        bend("judge: steps that change nothing not counted", |r| r.judging.idle_steps_count = false),
        bend("judge: zero with missed gates called U", |r| r.judging.missed_gates_may_be_equal = false),
        bend("judge: U called D", |r| r.judging.gate_variables_are_unfinished = false),
        bend("judge: smallest before fewest 1 bits", |r| r.judging.fewest_ones_come_first = false),
        bend("judge: first term taken as the wrong pair", |r| r.judging.pair_is_a_least_term = false),
    ]
}

#[rustfmt::skip]
fn of_lent_words() -> Vec<Mutant> {
    vec![
        bend("judge: R at step 0 holds its terms", |r| r.judging.full_start_holds_nothing = false),
        bend("judge: log written on the step of R", |r| r.judging.step_without_room_has_no_record = false),
        bend("judge: gate and terms of a record swapped", |r| r.judging.gate_comes_before_terms = false),
        bend("judge: other log records cleared", |r| r.judging.other_records_are_kept = false),
        bend("judge: sets rise in the store", |r| r.judging.sets_fall = false),
        bend("judge: first word of a set leads", |r| r.judging.last_word_leads = false),
        bend("judge: store cleared to its least size only", |r| r.judging.store_is_cleared_to_its_end = false),
        bend("judge: scratch not cleared", |r| r.judging.scratch_is_cleared = false),
    ]
}

#[rustfmt::skip]
fn of_occurrences() -> Vec<Mutant> {
    vec![
        bend("judge: occurrences not measured", |r| r.occurrences.are_measured = false),
        bend("judge: M words of occurrences taken", |r| r.occurrences.need_a_word_for_entry_0 = false),
        bend("judge: occurrences measured before all else", |r| r.occurrences.are_measured_last = false),
        bend("judge: a refusal clears the occurrences", |r| r.occurrences.refusal_keeps_them = false),
        bend("judge: entry 0 left as it was", |r| r.occurrences.entry_0_is_written = false),
        bend("judge: entry 0 counted like a variable", |r| r.occurrences.entry_0_has_all_terms = false),
        bend("judge: inputs not counted", |r| r.occurrences.inputs_are_counted = false),
        bend("judge: variable M not counted", |r| r.occurrences.last_variable_is_counted = false),
        bend("judge: terms that cancel still counted", |r| r.occurrences.cancelled_terms_are_taken_off = false),
        bend("judge: like terms that meet counted each", |r| r.occurrences.joined_terms_count_once = false),
        bend("judge: occurrences left as they were at R at step 0", |r| r.occurrences.full_start_is_written = false),
        bend("judge: terms counted at R at step 0", |r| r.occurrences.full_start_counts_nothing = false),
        bend("judge: occurrences left as they were at a later R", |r| r.occurrences.full_step_is_written = false),
        bend("judge: at a later R the terms without room counted", |r| r.occurrences.full_step_counts_what_is_held = false),
        bend("judge: words past the occurrences cleared", |r| r.occurrences.words_past_are_kept = false),
    ]
}

#[rustfmt::skip]
fn of_peak() -> Vec<Mutant> {
    vec![
        bend("judge: made counted after gathering", |r| r.peak.is_counted_before_gathering = false),
        bend("judge: literal 0 makes one", |r| r.peak.literal_0_makes_none = false),
        bend("judge: a subset with the constant false makes one", |r| r.peak.subset_with_false_makes_none = false),
        bend("judge: terms that vanish modulo 2^l not counted as made", |r| r.peak.vanished_terms_count = false),
        bend("judge: x times x joined before made is counted", |r| r.peak.squares_join_after_counting = false),
        bend("judge: a gate that does not occur has made 0", |r| r.peak.idle_steps_have_the_terms_before = false),
    ]
}

#[rustfmt::skip]
fn of_desk() -> Vec<Mutant> {
    vec![
        bend("desk: 4,097 bytes taken", |r| r.desk.most_bytes = 4_097),
        bend("desk: 4,096 bytes refused", |r| r.desk.most_bytes = 4_095),
        bend("desk: M 128 taken", |r| r.desk.most_variables = 128),
        bend("desk: T is 128", |r| r.desk.limit = 128),
        bend("desk: 13 and 9 swapped", |r| r.desk.length_comes_before_kind = false),
        bend("desk: kind line needs no end", |r| r.desk.kind_line_needs_its_end = false),
        bend("desk: first letter of the kind line decides", |r| r.desk.whole_kind_line_counts = false),
        bend("desk: 13 for M after judging", |r| r.desk.variables_come_before_judging = false),
        bend("desk: order from I + 1 up to M", |r| r.desk.order_falls = false),
        bend("desk: leading zero printed", |r| r.desk.numbers_are_bare = false),
        bend("desk: c not printed", |r| r.desk.c_is_shown_where_it_is_added = false),
        bend("desk: c printed where there is none", |r| r.desk.c_is_hidden_where_there_is_none = false),
        bend("desk: c printed before a", |r| r.desk.c_comes_after_b = false),
        bend("desk: got and wanted swapped", |r| r.desk.got_comes_before_wanted = false),
        bend("desk: line end missing", |r| r.desk.line_has_its_end = false),
    ]
}
