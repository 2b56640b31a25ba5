//! Made tables of lookup cells: random sound ones, right multipliers, and gates turned into cells.

use crate::cells::Cell;
use crate::netlists::{added, literal_below, operand, rows, width, Made};
use crate::random::Random;
use crate::reading::Reading;
use crate::records::{Record, Records};
use crate::table::Counts;

/// x1 and x2, whatever x3 is.
const AND: u32 = 136;
/// x1 xor x2 xor x3, the sum of a full adder.
const PARITY: u32 = 150;
/// At least two of three, the carry of a full adder.
const MAJORITY: u32 = 232;
/// Bytes whose polynomials are short, so that a run of steps is not out of room at once; the constants are among them.
const LIGHT: [u32; 12] = [
    0, 255, 85, 128, AND, 170, 204, 240, PARITY, MAJORITY, 60, 102,
];

impl Made {
    pub fn of_cells(inputs: u32, outputs: &[u32], cells: &[Cell]) -> Made {
        let mut table = outputs.to_vec();
        for Cell { byte, variables } in cells {
            table.push(*byte);
            table.extend(variables);
        }
        let a = cells.len() as u32;
        let counts = Counts {
            m: inputs + a,
            i: inputs,
            l: 0,
            o: outputs.len() as u32,
            a,
        };
        Made {
            counts,
            records: Records::Cells,
            table,
        }
    }
}

/// A sound table of cells with nothing in mind. Equal variables and the constant false are not rare.
pub fn random_cells(random: &mut Random, inputs: u32, outputs: u32, count: u32) -> Made {
    let cells: Vec<Cell> = (inputs + 1..=inputs + count)
        .map(|own| Cell {
            byte: random_byte(random),
            variables: random_variables(random, own),
        })
        .collect();
    let past = 2 * (inputs + count) + 2;
    let shown: Vec<u32> = (0..outputs).map(|_| literal_below(random, past)).collect();
    Made::of_cells(inputs, &shown, &cells)
}

fn random_byte(random: &mut Random) -> u32 {
    if random.one_in(2) {
        random.pick(&LIGHT)
    } else {
        random.below(256) as u32
    }
}

fn random_variables(random: &mut Random, own: u32) -> [u32; 3] {
    // A literal below twice the cell's own variable is one of a variable below it, or a constant.
    let mut variables = [0; 3].map(|_| literal_below(random, 2 * own) / 2);
    match random.below(8) {
        0 => variables[random.below(3)] = variables[random.below(3)],
        1 => variables = [variables[0]; 3],
        2 | 3 => variables[random.below(3)] = 0,
        _ => {}
    }
    variables
}

/// Changes one number of one cell, and keeps it sound.
pub fn change_cell(random: &mut Random, cell: &mut Cell, own: u32) {
    match random.below(4) {
        3 => cell.byte ^= 1 << random.below(8),
        place => cell.variables[place] = literal_below(random, 2 * own) / 2,
    }
}

/// Grows a table cell by cell. What a cell computes is handed in over literals, as gates have them.
struct Maker {
    inputs: u32,
    cells: Vec<Cell>,
}

impl Maker {
    /// A literal that has the value of the byte's function of three literals.
    ///
    /// Inverters go into the byte, the variables may change places, and the cell itself may be the inverse.
    fn cell(&mut self, random: &mut Random, byte: u32, literals: [u32; 3]) -> u32 {
        let mut places = [0, 1, 2];
        random.shuffle(&mut places);
        let is_inverse = random.one_in(3);
        let mut turned = 0;
        for index in 0..8u32 {
            let mut sought = 0;
            for (place, &to) in places.iter().enumerate() {
                let value = index >> to & 1 ^ literals[place] & 1;
                sought |= value << place;
            }
            turned |= (byte >> sought & 1 ^ u32::from(is_inverse)) << index;
        }
        let mut variables = [0; 3];
        for (place, &to) in places.iter().enumerate() {
            variables[to] = literals[place] / 2;
        }
        let byte = turned;
        self.cells.push(Cell { byte, variables });
        2 * (self.inputs + self.cells.len() as u32) + u32::from(is_inverse)
    }

    /// The AND of two literals. The third place is a constant, so half of the byte may be anything.
    fn and(&mut self, random: &mut Random, x: u32, y: u32) -> u32 {
        let unseen = random.below(16) as u32;
        let byte = AND & 15 | unseen << 4;
        self.cell(random, byte, [x, y, 0])
    }

    /// Adds a row to the sum from this place up with full adders; the carry out of the top is dropped.
    fn add_row(&mut self, random: &mut Random, sum: &mut [u32], row: &[u32], place: usize) {
        let mut carry = 0;
        for (total, &bit) in sum[place..].iter_mut().zip(row) {
            let added = [*total, bit, carry];
            *total = self.cell(random, PARITY, added);
            carry = self.cell(random, MAJORITY, added);
        }
        if let Some(above) = sum.get_mut(place + row.len()) {
            // Rows are added lowest first, so nothing stands above the row yet.
            *above = carry;
        }
    }
}

/// A multiplier of cells that is right under the reading: rows of partial products, added with full adders. Where c is
/// added, it is sometimes there before all rows and sometimes comes last.
pub fn cell_multiplier(random: &mut Random, reading: Reading, n: u32) -> Made {
    let l = reading.outputs(n) as usize;
    let mut maker = Maker {
        inputs: reading.inputs(n),
        cells: Vec::new(),
    };
    let x = operand(reading, 1, n, l);
    let y = operand(reading, n + 1, n, l);
    let added = added(reading, n);
    let c_comes_first = reading.adds() && random.one_in(2);
    let mut sum = vec![0; l];
    if c_comes_first {
        sum.copy_from_slice(&added);
    }
    for (place, &multiplier) in y.iter().enumerate().take(rows(reading, n)) {
        let width = width(reading, n, place);
        let row: Vec<u32> = x[..width]
            .iter()
            .map(|&bit| maker.and(random, bit, multiplier))
            .collect();
        if place == 0 && !c_comes_first {
            sum[..width].copy_from_slice(&row);
        } else {
            maker.add_row(random, &mut sum, &row, place);
        }
    }
    if reading.adds() && !c_comes_first {
        maker.add_row(random, &mut sum, &added, 0);
    }
    Made::of_cells(maker.inputs, &sum, &maker.cells)
}

/// The same netlist with a cell for each gate: the AND of two literals has the same polynomial either way.
pub fn gates_as_cells(gates: &Made) -> Made {
    let netlist = gates.netlist();
    let cells: Vec<Cell> = netlist
        .gates()
        .map(|gate| match netlist.record(gate) {
            Record::Gate(rhs0, rhs1) => and_cell(rhs0, rhs1),
            Record::Cell(cell) => cell,
        })
        .collect();
    Made::of_cells(gates.counts.i, netlist.outputs(), &cells)
}

/// The cell that is the AND of two literals: it has one bit in each half of its byte.
fn and_cell(rhs0: u32, rhs1: u32) -> Cell {
    let index = (rhs0 & 1 ^ 1) + 2 * (rhs1 & 1 ^ 1);
    Cell {
        byte: 17 << index,
        variables: [rhs0 / 2, rhs1 / 2, 0],
    }
}
