//! What a comparison of the exported functions, as `hraskell::raw` has them, with the second program needs.
//!
//! A comparison runs each case twice, once with the library answering and
//! once with the second program, and looks at the number given and at every
//! lent word. The same cases also run with a mutant answering, so that a
//! comparison too weak to see a bent rule is seen itself.

pub mod mirror;
pub mod outcome;
pub mod types;
