//! A second judge of combinational multiplier netlists, written from documents 01 and 02 and the decisions on their open
//! points alone.
//!
//! It is kept plain so that it can be believed by reading: a polynomial is an
//! ordered map from sets of variables to coefficients, and every rule of the
//! document has one named place in [`rules::Rules`].

pub mod blocks;
pub mod brute;
pub mod cases;
pub mod cell_netlists;
pub mod cells;
pub mod cells_file;
pub mod desk;
pub mod judge;
mod mutants;
pub mod netlists;
mod occurrences;
pub mod orders;
mod peak;
pub mod polynomial;
pub mod random;
pub mod reading;
pub mod records;
pub mod rules;
pub mod table;
pub mod text;
pub mod words;

pub use desk::{desk, desk_by};
pub use judge::{judge, judge_by, Answer};
pub use reading::wanted;
pub use records::Records;
pub use rules::Rules;
pub use table::{evaluate, evaluate_by, Counts};
pub use text::{read, read_by};
pub use words::{Lent, Step};
