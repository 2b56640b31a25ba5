//! What the finder puts in place of a gate, and the polynomial that it starts from.

use super::polynomial::{Part, Polynomial};
use crate::block::Block;
use crate::reading::Reading;

/// The product of a gate's two literals, each 0, 1, x or 1 - x. Like parts are not gathered.
pub fn parts_of_gate(literals: [u32; 2]) -> Vec<Part> {
    let mut product = Vec::new();
    for (one, x) in parts_of_literal(literals[0]) {
        for (other, y) in parts_of_literal(literals[1]) {
            product.push(Part {
                factor: one.wrapping_mul(other),
                variables: [x, y],
            });
        }
    }
    product
}

/// The sum of 2^i times output i, minus what the reading wants, modulo 2^l.
pub fn start(block: &Block, reading: Reading) -> Polynomial {
    let counts = block.counts;
    let mut start = Polynomial::zero(counts.m, counts.i, reading.output_bits(counts));
    for (place, &literal) in block.outputs().iter().enumerate() {
        for (factor, variable) in parts_of_literal(literal) {
            let variables = [variable, None];
            start.add(power(place as u32), Part { factor, variables });
        }
    }
    let n = reading.operand_bits(counts);
    take_product_away(&mut start, n, reading.is_signed());
    if reading.adds() {
        for place in 0..2 * n {
            let variables = [Some(2 * n + 1 + place), None];
            let factor = MINUS_ONE;
            start.add(power(place), Part { factor, variables });
        }
    }
    start
}

/// Takes the sum of 2^(i+j) a_i b_j away; where operands are signed, a term with exactly one top bit is added instead.
fn take_product_away(start: &mut Polynomial, n: u32, is_signed: bool) {
    for i in 0..n {
        for j in 0..n {
            let has_sign = is_signed && (i == n - 1) != (j == n - 1);
            let variables = [Some(1 + i), Some(1 + n + j)];
            let factor = if has_sign { 1 } else { MINUS_ONE };
            start.add(power(i + j), Part { factor, variables });
        }
    }
}

/// A literal as a sum of factors times at most one variable: 0, 1, x or 1 - x.
fn parts_of_literal(literal: u32) -> Vec<(u64, Option<u32>)> {
    let variable = Some(literal / 2);
    match literal {
        0 => vec![],
        1 => vec![(1, None)],
        _ if literal.is_multiple_of(2) => vec![(1, variable)],
        _ => vec![(1, None), (MINUS_ONE, variable)],
    }
}

/// -1 modulo 2^64.
const MINUS_ONE: u64 = u64::MAX;

/// 2^place modulo 2^64.
fn power(place: u32) -> u64 {
    1u64.checked_shl(place).unwrap_or(0)
}
