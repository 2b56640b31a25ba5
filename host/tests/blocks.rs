//! Real blocks under several orders and limits, beside the second program.

mod calls;

use calls::{asked, file, folder, line_by_second, top};
use second::blocks::{of_gates, orders_for, Block};
use std::path::PathBuf;

/// The file of a block.
fn path_of(block: &Block) -> PathBuf {
    let name = format!("{}.aag", block.name);
    let places = ["second/blocks", "second/blocks/mac"].map(|place| top().join(place).join(&name));
    let found = places.into_iter().find(|place| place.is_file());
    found.unwrap_or_else(|| panic!("no file of {name}"))
}

/// What is printed for a block by an order that is handed in as a file, and what the second program says.
fn both(block: &Block, limit: u64, order: &[u32], order_file: &str) -> (String, String) {
    let path = path_of(block);
    let text = std::fs::read(&path).unwrap();
    let letters = block.reading.name();
    let limit_word = limit.to_string();
    let words = ["--terms", &limit_word, "--order", order_file, letters];
    let mut words: Vec<&str> = words.to_vec();
    words.push(path.to_str().unwrap());
    let printed = asked(&words, "").printed;
    let wanted = line_by_second(letters, limit, &text, Some(order));
    (printed, format!("{wanted}\n"))
}

#[test]
fn answers_are_those_of_the_second_program_under_orders_and_limits_of_all_sorts() {
    let place = folder("blocks");
    let mut letters_met = std::collections::BTreeSet::new();
    for block in of_gates().iter().filter(|block| block.made.counts.m < 500) {
        for order in orders_for(block, 1) {
            let words: Vec<String> = order.steps.iter().map(u32::to_string).collect();
            let order_file = file(&place, "order", words.join(" "));
            for limit in [128, 1_024, 16_384] {
                let (printed, wanted) = both(block, limit, &order.steps, &order_file);
                assert_eq!(printed, wanted, "{}, {}, {limit}", block.name, order.name);
                letters_met.extend(printed.chars().next());
            }
        }
    }
    // Each of these has to be met, or the cases show too little.
    for letter in ['E', 'R', 'U'] {
        assert!(letters_met.contains(&letter), "{letters_met:?}");
    }
}
