//! The rules of document 01 and of sections 5, 6, 9 and 12 of document 02 as values, and the numbers of refusal.
//!
//! Every field states one rule, and `of_document` gives it the document's
//! value. The rest of the program asks these fields instead of writing the
//! rule down a second time. That lets `mutants` bend exactly one rule at a time:
//! a comparison that cannot tell a mutant from the document is too weak.

/// Header line malformed or cut short.
pub const HEADER: u32 = 1;
/// A count outside its limits.
pub const COUNTS: u32 = 2;
/// Table shorter than O + 2A, or O + 4A for lookup cells.
pub const TABLE_SHORT: u32 = 3;
/// Input line wrong.
pub const INPUT_LINE: u32 = 4;
/// Output line wrong.
pub const OUTPUT_LINE: u32 = 5;
/// Gate line wrong.
pub const GATE_LINE: u32 = 6;
/// Bytes after the last gate line.
pub const BYTES_AFTER: u32 = 7;
/// Table handed in unsound.
pub const UNSOUND: u32 = 8;
/// Kind unknown, O is not l, or I is no multiple of 4 where the kind wants one.
pub const KIND: u32 = 9;
/// T outside 128..16,384.
pub const LIMIT: u32 = 10;
/// Order too long, or names something that is no gate.
pub const ORDER: u32 = 11;
/// Store, scratch, log or occurrences too short.
pub const LENT_SHORT: u32 = 12;
/// Desk program only: input over 4,096 bytes, or M > 127.
pub const DESK: u32 = 13;

#[derive(Clone, Copy, Debug, PartialEq, Eq)]
pub struct Rules {
    pub counts: CountRules,
    pub text: TextRules,
    pub table: TableRules,
    pub cells: CellRules,
    pub adding: AddingRules,
    pub judging: JudgingRules,
    pub occurrences: OccurrenceRules,
    pub peak: PeakRules,
    pub desk: DeskRules,
}

/// Limits of the five counts, wherever they come from.
#[derive(Clone, Copy, Debug, PartialEq, Eq)]
pub struct CountRules {
    pub most_variables: u32,
    pub least_inputs: u32,
    pub most_inputs: u32,
    pub inputs_are_even: bool,
    pub most_outputs: u32,
    pub most_latches: u32,
    pub sum_is_exact: bool,
}

/// How a netlist text is written, and what reading it may touch.
#[derive(Clone, Copy, Debug, PartialEq, Eq)]
pub struct TextRules {
    pub most_digits: usize,
    pub leading_zero_is_wrong: bool,
    pub last_line_needs_its_end: bool,
    pub input_lines_are_in_sequence: bool,
    pub left_side_is_in_sequence: bool,
    pub nothing_follows: bool,
    pub table_length_is_checked: bool,
    pub table_comes_before_lines: bool,
    pub refusal_writes_nothing: bool,
    pub words_past_are_kept: bool,
}

/// What a sound table is, and the value of its outputs.
#[derive(Clone, Copy, Debug, PartialEq, Eq)]
pub struct TableRules {
    pub gate_literals_fall: bool,
    pub gate_reads_below_itself: bool,
    pub last_inverse_is_an_output: bool,
    pub operand_bits_from_n_are_absent: bool,
    pub first_operand_comes_first: bool,
    pub output_0_is_lowest: bool,
    pub gate_inverters_count: bool,
    pub output_inverters_count: bool,
    pub literal_1_is_true: bool,
}

/// What a lookup cell is, what it asks of lent words, and what its step makes.
#[derive(Clone, Copy, Debug, PartialEq, Eq)]
pub struct CellRules {
    pub record_has_four_words: bool,
    pub most_byte: u32,
    pub cell_reads_below_itself: bool,
    pub first_variable_is_lowest: bool,
    pub variable_0_is_false: bool,
    pub last_of_parity_is_plus: bool,
    pub squares_join: bool,
    pub vanished_terms_go: bool,
    pub scratch_is_eightfold: bool,
}

/// What the kinds that multiply and add ask of the inputs, want, and choose among wrong operands.
#[derive(Clone, Copy, Debug, PartialEq, Eq)]
pub struct AddingRules {
    pub n_is_a_quarter: bool,
    pub inputs_come_by_fours: bool,
    pub b_comes_before_c: bool,
    pub c_has_2n_bits: bool,
    pub c_is_in_the_start: bool,
    pub sum_has_l_bits: bool,
    pub ms_has_signs: bool,
    pub ones_of_c_count: bool,
    pub c_is_above_b: bool,
}

/// What judging counts, chooses and leaves in the lent words.
#[derive(Clone, Copy, Debug, PartialEq, Eq)]
pub struct JudgingRules {
    pub least_limit: u64,
    pub most_limit: u64,
    pub most_steps: usize,
    pub kind_is_32_bits: bool,
    pub limit_comes_before_order: bool,
    pub soundness_comes_before_kind: bool,
    pub log_is_measured: bool,
    pub coefficients_have_l_bits: bool,
    pub squares_join: bool,
    pub signed_terms_have_signs: bool,
    pub gathered_terms_are_counted: bool,
    pub exactly_the_limit_is_room: bool,
    pub idle_steps_count: bool,
    pub missed_gates_may_be_equal: bool,
    pub gate_variables_are_unfinished: bool,
    pub fewest_ones_come_first: bool,
    pub pair_is_a_least_term: bool,
    pub full_start_holds_nothing: bool,
    pub step_without_room_has_no_record: bool,
    pub gate_comes_before_terms: bool,
    pub other_records_are_kept: bool,
    pub sets_fall: bool,
    pub last_word_leads: bool,
    pub store_is_cleared_to_its_end: bool,
    pub scratch_is_cleared: bool,
}

/// How the variables of the polynomial held are counted, and what that asks of and leaves in its lent words.
#[derive(Clone, Copy, Debug, PartialEq, Eq)]
pub struct OccurrenceRules {
    pub are_measured: bool,
    pub need_a_word_for_entry_0: bool,
    pub are_measured_last: bool,
    pub refusal_keeps_them: bool,
    pub entry_0_is_written: bool,
    pub entry_0_has_all_terms: bool,
    pub inputs_are_counted: bool,
    pub last_variable_is_counted: bool,
    pub cancelled_terms_are_taken_off: bool,
    pub joined_terms_count_once: bool,
    pub full_start_is_written: bool,
    pub full_start_counts_nothing: bool,
    pub full_step_is_written: bool,
    pub full_step_counts_what_is_held: bool,
    pub words_past_are_kept: bool,
}

/// What a step counts among its terms before gathering. None of it changes any other number.
#[derive(Clone, Copy, Debug, PartialEq, Eq)]
pub struct PeakRules {
    pub is_counted_before_gathering: bool,
    pub literal_0_makes_none: bool,
    pub subset_with_false_makes_none: bool,
    pub vanished_terms_count: bool,
    pub squares_join_after_counting: bool,
    pub idle_steps_have_the_terms_before: bool,
}

/// What the desk program takes, in what order it checks, and how it prints.
#[derive(Clone, Copy, Debug, PartialEq, Eq)]
pub struct DeskRules {
    pub most_bytes: usize,
    pub most_variables: u32,
    pub limit: u64,
    pub length_comes_before_kind: bool,
    pub kind_line_needs_its_end: bool,
    pub whole_kind_line_counts: bool,
    pub variables_come_before_judging: bool,
    pub order_falls: bool,
    pub numbers_are_bare: bool,
    pub c_is_shown_where_it_is_added: bool,
    pub c_is_hidden_where_there_is_none: bool,
    pub c_comes_after_b: bool,
    pub got_comes_before_wanted: bool,
    pub line_has_its_end: bool,
}

impl Rules {
    pub const fn of_document() -> Rules {
        Rules {
            counts: CountRules::of_document(),
            text: TextRules::of_document(),
            table: TableRules::of_document(),
            cells: CellRules::of_document(),
            adding: AddingRules::of_document(),
            judging: JudgingRules::of_document(),
            occurrences: OccurrenceRules::of_document(),
            peak: PeakRules::of_document(),
            desk: DeskRules::of_document(),
        }
    }
}

impl CountRules {
    const fn of_document() -> CountRules {
        CountRules {
            most_variables: 1_023,
            least_inputs: 2,
            most_inputs: 64,
            inputs_are_even: true,
            most_outputs: 64,
            most_latches: 0,
            sum_is_exact: true,
        }
    }
}

impl TextRules {
    const fn of_document() -> TextRules {
        TextRules {
            most_digits: 4,
            leading_zero_is_wrong: true,
            last_line_needs_its_end: true,
            input_lines_are_in_sequence: true,
            left_side_is_in_sequence: true,
            nothing_follows: true,
            table_length_is_checked: true,
            table_comes_before_lines: true,
            refusal_writes_nothing: true,
            words_past_are_kept: true,
        }
    }
}

impl TableRules {
    const fn of_document() -> TableRules {
        TableRules {
            gate_literals_fall: true,
            gate_reads_below_itself: true,
            last_inverse_is_an_output: true,
            operand_bits_from_n_are_absent: true,
            first_operand_comes_first: true,
            output_0_is_lowest: true,
            gate_inverters_count: true,
            output_inverters_count: true,
            literal_1_is_true: true,
        }
    }
}

impl CellRules {
    const fn of_document() -> CellRules {
        CellRules {
            record_has_four_words: true,
            most_byte: 255,
            cell_reads_below_itself: true,
            first_variable_is_lowest: true,
            variable_0_is_false: true,
            last_of_parity_is_plus: true,
            squares_join: true,
            vanished_terms_go: true,
            scratch_is_eightfold: true,
        }
    }
}

impl AddingRules {
    const fn of_document() -> AddingRules {
        AddingRules {
            n_is_a_quarter: true,
            inputs_come_by_fours: true,
            b_comes_before_c: true,
            c_has_2n_bits: true,
            c_is_in_the_start: true,
            sum_has_l_bits: true,
            ms_has_signs: true,
            ones_of_c_count: true,
            c_is_above_b: true,
        }
    }
}

impl JudgingRules {
    const fn of_document() -> JudgingRules {
        JudgingRules {
            least_limit: 128,
            most_limit: 16_384,
            most_steps: 4_096,
            kind_is_32_bits: true,
            limit_comes_before_order: true,
            soundness_comes_before_kind: true,
            log_is_measured: true,
            coefficients_have_l_bits: true,
            squares_join: true,
            signed_terms_have_signs: true,
            gathered_terms_are_counted: true,
            exactly_the_limit_is_room: true,
            idle_steps_count: true,
            missed_gates_may_be_equal: true,
            gate_variables_are_unfinished: true,
            fewest_ones_come_first: true,
            pair_is_a_least_term: true,
            full_start_holds_nothing: true,
            step_without_room_has_no_record: true,
            gate_comes_before_terms: true,
            other_records_are_kept: true,
            sets_fall: true,
            last_word_leads: true,
            store_is_cleared_to_its_end: true,
            scratch_is_cleared: true,
        }
    }
}

impl OccurrenceRules {
    const fn of_document() -> OccurrenceRules {
        OccurrenceRules {
            are_measured: true,
            need_a_word_for_entry_0: true,
            are_measured_last: true,
            refusal_keeps_them: true,
            entry_0_is_written: true,
            entry_0_has_all_terms: true,
            inputs_are_counted: true,
            last_variable_is_counted: true,
            cancelled_terms_are_taken_off: true,
            joined_terms_count_once: true,
            full_start_is_written: true,
            full_start_counts_nothing: true,
            full_step_is_written: true,
            full_step_counts_what_is_held: true,
            words_past_are_kept: true,
        }
    }
}

impl PeakRules {
    const fn of_document() -> PeakRules {
        PeakRules {
            is_counted_before_gathering: true,
            literal_0_makes_none: true,
            subset_with_false_makes_none: true,
            vanished_terms_count: true,
            squares_join_after_counting: true,
            idle_steps_have_the_terms_before: true,
        }
    }
}

impl DeskRules {
    const fn of_document() -> DeskRules {
        DeskRules {
            most_bytes: 4_096,
            most_variables: 127,
            limit: 512,
            length_comes_before_kind: true,
            kind_line_needs_its_end: true,
            whole_kind_line_counts: true,
            variables_come_before_judging: true,
            order_falls: true,
            numbers_are_bare: true,
            c_is_shown_where_it_is_added: true,
            c_is_hidden_where_there_is_none: true,
            c_comes_after_b: true,
            got_comes_before_wanted: true,
            line_has_its_end: true,
        }
    }
}
