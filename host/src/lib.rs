//! The tester's program. The proved library answers; all else here reads files, finds orders and tells what was answered.

// a block and its judgement
pub mod block; // a netlist as the library has read it
pub mod judging; // one judgement by the library
pub mod orders; // an order found by a rule, or handed in
pub mod reading; // the five readings
pub mod told; // a file under one reading, with all that is told of it

// what is told of it
pub mod course; // the terms held after each step of a judgement
pub mod escaping; // file names and other words from outside, fit for a terminal, markup and JSON
pub mod json; // a judgement for other programs
pub mod line; // the desk's line and the exit status
pub mod log; // the steps as tab-separated text
pub mod page; // the fixed words and the style of the report
pub mod plot; // the terms after each step as a picture
pub mod refusals; // what the refusals mean and where in a file they are
pub mod report; // a page for a licensee
pub mod scale; // an axis with round numbers
pub mod sentence; // a judgement in one plain sentence
pub mod wording; // numbers, lists and names as they are written everywhere

// the call
pub mod asking; // one file under the readings asked for
pub mod desk; // the desk program, asked instead of the library
pub mod digest; // SHA-256
pub mod files; // files read, and their names shown
pub mod options; // the words of the command line
pub mod orderfile; // orders as text
pub mod outputs; // the files that a run leaves
pub mod parallel; // many pieces of work over all processors
pub mod printing; // lines and sentences on their streams
pub mod progress; // how far long work is
pub mod run; // a whole call
pub mod stopping; // Ctrl-C
pub mod version; // which program and library answered
pub mod written; // a file written whole or not at all
