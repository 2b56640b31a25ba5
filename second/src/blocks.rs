//! The real blocks, and their run as a command.

use crate::cells_file::read_cells;
use crate::desk::{answer_line, TABLE_WORDS};
use crate::judge::{Answer, Run};
use crate::netlists::Made;
use crate::orders;
use crate::random::Random;
use crate::reading::Reading;
use crate::records::Records;
use crate::rules::Rules;
use crate::text::read;
use std::path::{Path, PathBuf};

/// A block with the reading and the operand bits that its name tells.
#[derive(Clone, Debug)]
pub struct Block {
    pub name: String,
    pub reading: Reading,
    pub n: u32,
    pub made: Made,
}

/// An order of steps with what is known of it.
pub struct NamedOrder {
    pub name: String,
    pub is_honest: bool,
    pub steps: Vec<u32>,
}

/// All blocks that came with the package: those of gates, then those of cells.
pub fn all() -> Vec<Block> {
    [of_gates(), of_cells()].concat()
}

/// The blocks of AND gates: those that multiply, by name, then those that multiply and add.
pub fn of_gates() -> Vec<Block> {
    let products = blocks_in("", GATES_ENDING, gates_of);
    let sums = blocks_in("mac", GATES_ENDING, gates_of);
    [products, sums].concat()
}

/// The blocks of lookup cells, by name.
pub fn of_cells() -> Vec<Block> {
    blocks_in("lut", CELLS_ENDING, cells_of)
}

/// How the name of a file with a netlist text ends.
const GATES_ENDING: &str = ".aag";
/// How the name of a file with a table of lookup cells ends.
pub const CELLS_ENDING: &str = ".cells";

fn folder() -> PathBuf {
    Path::new(env!("CARGO_MANIFEST_DIR")).join("blocks")
}

fn names_in(folder: &Path, ending: &str) -> Vec<String> {
    let entries = std::fs::read_dir(folder).expect("the folder of blocks");
    let mut names: Vec<String> = entries
        .map(|entry| entry.expect("a folder entry").file_name())
        .map(|name| name.to_string_lossy().into_owned())
        .filter(|name| name.ends_with(ending))
        .collect();
    names.sort();
    names
}

fn bytes(folder: &Path, file: &str) -> Vec<u8> {
    std::fs::read(folder.join(file)).expect("a block's text")
}

/// The reading and the operand bits that the last part of a block's name tells.
fn told_by(name: &str) -> (Reading, u32) {
    let mark = name.rsplit('-').next().expect("a last part");
    let digits = mark.find(|c: char| c.is_ascii_digit());
    let (letters, digits) = mark.split_at(digits.expect("the operand bits"));
    let reading = Reading::of_name(letters.as_bytes());
    let n = digits.parse();
    (reading.expect("a reading"), n.expect("a number"))
}

/// The blocks of a folder, by name.
fn blocks_in(folder_name: &str, ending: &str, table_of: fn(&[u8]) -> Made) -> Vec<Block> {
    let folder = folder().join(folder_name);
    let blocks = names_in(&folder, ending).into_iter().map(|file| {
        let name = file.trim_end_matches(ending).to_string();
        let (reading, n) = told_by(&name);
        Block {
            name,
            reading,
            n,
            made: table_of(&bytes(&folder, &file)),
        }
    });
    blocks.collect()
}

fn gates_of(text: &[u8]) -> Made {
    let mut table = vec![0; TABLE_WORDS];
    let counts = read(text, &mut table).expect("a sound block");
    let records = Records::Gates;
    table.truncate(counts.table_words(records) as usize);
    Made {
        counts,
        records,
        table,
    }
}

fn cells_of(text: &[u8]) -> Made {
    let text = std::str::from_utf8(text).expect("a text of ASCII");
    read_cells(text).expect("a table of cells")
}

/// The order M down to I + 1, and an honest and a shuffled one for each seed.
pub fn orders_for(block: &Block, seeds: u64) -> Vec<NamedOrder> {
    let mut list = vec![NamedOrder {
        name: "falling".to_string(),
        is_honest: true,
        steps: orders::falling(block.made.counts),
    }];
    for seed in 1..=seeds {
        let mut random = Random::new(seed);
        list.push(NamedOrder {
            name: format!("honest {seed}"),
            is_honest: true,
            steps: orders::honest(&mut random, &block.made.netlist()),
        });
        list.push(NamedOrder {
            name: format!("shuffled {seed}"),
            is_honest: false,
            steps: orders::shuffled(&mut random, block.made.counts),
        });
    }
    list
}

/// The order found by trying which gate leaves the fewest terms.
pub fn thrifty_order(block: &Block, limit: u64) -> NamedOrder {
    NamedOrder {
        name: "thrifty".to_string(),
        is_honest: true,
        steps: orders::thrifty(&block.made.netlist(), block.reading, limit as usize),
    }
}

/// A run of the judge on a block under its own reading, or the number of refusal.
pub fn run(block: &Block, limit: u64, order: &[u32]) -> Result<Run, u32> {
    let rules = Rules::of_document();
    let question = block.made.question(block.reading.kind(), limit, order)?;
    Ok(question.run(&rules))
}

/// The most terms after any step completed.
pub fn most_terms(run: &Run) -> u32 {
    run.log.iter().map(|step| step.terms).max().unwrap_or(0)
}

/// A right block is never called different, and an honest order leaves nothing unfinished.
pub fn is_believable(answer: &Answer, is_honest: bool) -> bool {
    match answer {
        Answer::Equal { .. } | Answer::OutOfRoom { .. } => true,
        Answer::Unfinished { .. } => !is_honest,
        Answer::Differs { .. } | Answer::Refused(_) => false,
    }
}

/// Runs the blocks of more than six bits and prints a line for each order; says whether all is believable.
pub fn run_larger(limit: u64, seeds: u64) -> bool {
    let mut all_hold = true;
    for block in all().into_iter().filter(|block| block.n > 6) {
        let thrifty = thrifty_order(&block, limit);
        for order in orders_for(&block, seeds).into_iter().chain([thrifty]) {
            all_hold &= run_and_print(&block, limit, &order);
        }
    }
    all_hold
}

fn run_and_print(block: &Block, limit: u64, order: &NamedOrder) -> bool {
    let (answer, most) = match run(block, limit, &order.steps) {
        Ok(run) => (run.answer, most_terms(&run)),
        Err(number) => (Answer::Refused(number), 0),
    };
    let holds = is_believable(&answer, order.is_honest);
    let mark = if holds { "" } else { "  WRONG" };
    let line = answer_line(block.reading, &answer);
    println!("{} {}: {line} (most {most}){mark}", block.name, order.name);
    holds
}
