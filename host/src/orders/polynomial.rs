//! The finder's own polynomial. It is made to be quick and nobody believes it: sets whose hashes meet are taken for one set,
//! which at worst makes a poor order.

use std::collections::HashMap;
use std::hash::{BuildHasherDefault, Hasher};
use std::rc::Rc;

/// Places whose coefficient is 0 are swept away once they are more than the terms and so many.
const SPARE_PLACES: usize = 256;

/// One part of what stands for a gate or an output: a whole factor times at most two variables.
#[derive(Clone, Copy, Debug, PartialEq, Eq)]
pub struct Part {
    /// Modulo 2^64.
    pub factor: u64,
    pub variables: [Option<u32>; 2],
}

/// Terms over variables that are 0 or 1. A term keeps its place when its coefficient becomes 0, so that lists of places
/// stay true; such places are swept away from time to time.
#[derive(Clone)]
pub struct Polynomial {
    /// The low l bits, which coefficients are cut to.
    coefficient_bits: u64,
    /// A random word for each variable: the hash of a set is the XOR of its variables' words.
    marks: Rc<[u64]>,
    /// Variables up to this one are inputs: no step replaces them.
    inputs: u32,
    /// Words of a set, variable v at bit v mod 64 of word v/64.
    set_words: usize,
    /// The place of the set with this hash.
    places: HashMap<u64, u32, BuildHasherDefault<AsItIs>>,
    hashes: Vec<u64>,
    coefficients: Vec<u64>,
    sets: Vec<u64>,
    /// For each gate variable the places of the sets with it.
    places_with: Vec<Vec<u32>>,
    /// How many coefficients are not 0.
    terms: usize,
}

impl Polynomial {
    /// Zero, over the variables up to `variables`, of which those up to `inputs` are inputs; modulo 2^l.
    pub fn zero(variables: u32, inputs: u32, l: u32) -> Polynomial {
        Polynomial {
            coefficient_bits: low_bits(l),
            marks: marks(variables).into(),
            inputs,
            set_words: variables as usize / 64 + 1,
            places: HashMap::default(),
            hashes: Vec::new(),
            coefficients: Vec::new(),
            sets: Vec::new(),
            places_with: vec![Vec::new(); variables as usize + 1],
            terms: 0,
        }
    }

    /// How many terms there are, like ones gathered.
    pub fn terms(&self) -> usize {
        self.terms
    }

    /// Whether a term holds this gate.
    pub fn holds(&self, gate: u32) -> bool {
        self.terms_with(gate).next().is_some()
    }

    /// Adds a coefficient times a part.
    pub fn add(&mut self, coefficient: u64, part: Part) {
        let set = vec![0; self.set_words];
        self.add_product(coefficient, &set, 0, part);
    }

    /// Puts the parts of a gate in its place in every term.
    pub fn replace(&mut self, gate: u32, parts: &[Part]) {
        let places: Vec<usize> = self.terms_with(gate).collect();
        self.places_with[gate as usize] = Vec::new();
        for place in places {
            let coefficient = self.coefficients[place];
            self.set_coefficient(place, 0);
            let mut rest = self.set(place).to_vec();
            rest[word_of(gate)] &= !bit_of(gate);
            let hash = self.hashes[place] ^ self.marks[gate as usize];
            for &part in parts {
                self.add_product(coefficient, &rest, hash, part);
            }
        }
        if self.coefficients.len() > 2 * self.terms + SPARE_PLACES {
            self.sweep();
        }
    }

    /// By how many terms the polynomial would grow if the parts of a gate were put in its place. Nothing is built for that.
    pub fn growth(&self, gate: u32, parts: &[Part]) -> i64 {
        let mut holding = 0;
        let mut made = Vec::new();
        for place in self.terms_with(gate) {
            holding += 1;
            let coefficient = self.coefficients[place];
            let rest = self.hashes[place] ^ self.marks[gate as usize];
            for part in parts {
                let hash = self.hash_with(self.set(place), rest, part);
                made.push((hash, coefficient.wrapping_mul(part.factor)));
            }
        }
        made.sort_unstable_by_key(|&(hash, _)| hash);
        let changes = made.chunk_by(|one, next| one.0 == next.0);
        changes.map(|like| self.gain(like)).sum::<i64>() - holding
    }

    /// The terms gained when these are added to the term with their one hash: 1, 0 or -1.
    fn gain(&self, like: &[(u64, u64)]) -> i64 {
        let change = like
            .iter()
            .fold(0, |sum: u64, made| sum.wrapping_add(made.1));
        let before = self.coefficient(like[0].0);
        let after = before.wrapping_add(change) & self.coefficient_bits;
        i64::from(after != 0) - i64::from(before != 0)
    }

    /// The coefficient of the set with this hash.
    fn coefficient(&self, hash: u64) -> u64 {
        let place = self.places.get(&hash);
        place.map_or(0, |&place| self.coefficients[place as usize])
    }

    /// The places of the terms that hold a gate.
    fn terms_with(&self, gate: u32) -> impl Iterator<Item = usize> + '_ {
        let places = self.places_with[gate as usize].iter();
        places
            .map(|&place| place as usize)
            .filter(|&place| self.coefficients[place] != 0)
    }

    fn set(&self, place: usize) -> &[u64] {
        &self.sets[place * self.set_words..][..self.set_words]
    }

    /// The hash of a set, which has the hash `rest`, once a part's variables are in it; x·x is x.
    fn hash_with(&self, set: &[u64], rest: u64, part: &Part) -> u64 {
        let mark_unless_in = |variable: u32| match set[word_of(variable)] & bit_of(variable) {
            0 => self.marks[variable as usize],
            _ => 0,
        };
        match part.variables {
            [None, None] => rest,
            [Some(x), None] | [None, Some(x)] => rest ^ mark_unless_in(x),
            [Some(x), Some(y)] if x == y => rest ^ mark_unless_in(x),
            [Some(x), Some(y)] => rest ^ mark_unless_in(x) ^ mark_unless_in(y),
        }
    }

    /// Adds a coefficient times a set, which has this hash, times a part.
    fn add_product(&mut self, coefficient: u64, set: &[u64], hash: u64, part: Part) {
        let added = coefficient.wrapping_mul(part.factor) & self.coefficient_bits;
        let hash = self.hash_with(set, hash, &part);
        let place = match self.places.get(&hash) {
            Some(&place) => place as usize,
            None if added == 0 => return,
            None => self.new_place(set, hash, part),
        };
        let sum = self.coefficients[place].wrapping_add(added);
        self.set_coefficient(place, sum & self.coefficient_bits);
    }

    fn set_coefficient(&mut self, place: usize, coefficient: u64) {
        self.terms += usize::from(coefficient != 0);
        self.terms -= usize::from(self.coefficients[place] != 0);
        self.coefficients[place] = coefficient;
    }

    /// A place, with coefficient 0, for a set with a part's variables in it.
    fn new_place(&mut self, set: &[u64], hash: u64, part: Part) -> usize {
        let place = self.coefficients.len();
        self.places.insert(hash, place as u32);
        self.hashes.push(hash);
        self.coefficients.push(0);
        self.sets.extend_from_slice(set);
        let own = &mut self.sets[place * self.set_words..];
        for variable in part.variables.into_iter().flatten() {
            own[word_of(variable)] |= bit_of(variable);
        }
        self.list(place);
        place
    }

    /// Lists a place with every gate that its set has.
    fn list(&mut self, place: usize) {
        for word in 0..self.set_words {
            let mut left = self.sets[place * self.set_words + word];
            while left != 0 {
                let variable = 64 * word as u32 + left.trailing_zeros();
                left &= left - 1;
                if variable > self.inputs {
                    self.places_with[variable as usize].push(place as u32);
                }
            }
        }
    }

    /// Gives up the places whose coefficient is 0.
    fn sweep(&mut self) {
        let old = std::mem::replace(self, self.emptied());
        for place in (0..old.coefficients.len()).filter(|&place| old.coefficients[place] != 0) {
            let new = self.coefficients.len();
            self.places.insert(old.hashes[place], new as u32);
            self.hashes.push(old.hashes[place]);
            self.coefficients.push(old.coefficients[place]);
            self.sets.extend_from_slice(old.set(place));
            self.list(new);
        }
        self.terms = old.terms;
    }

    /// Zero, over the same variables.
    fn emptied(&self) -> Polynomial {
        Polynomial {
            marks: self.marks.clone(),
            places: HashMap::default(),
            hashes: Vec::new(),
            coefficients: Vec::new(),
            sets: Vec::new(),
            places_with: vec![Vec::new(); self.places_with.len()],
            terms: 0,
            ..*self
        }
    }
}

fn word_of(variable: u32) -> usize {
    variable as usize / 64
}

fn bit_of(variable: u32) -> u64 {
    1 << (variable % 64)
}

/// A word with the lowest `count` bits set.
fn low_bits(count: u32) -> u64 {
    match count {
        64.. => u64::MAX,
        _ => (1 << count) - 1,
    }
}

/// A random word for each variable, the same ones every time (splitmix64), so that an order can be found again.
fn marks(variables: u32) -> Vec<u64> {
    let mut state: u64 = 0;
    let mut word = || {
        state = state.wrapping_add(0x9e37_79b9_7f4a_7c15);
        let mut mixed = state;
        mixed = (mixed ^ (mixed >> 30)).wrapping_mul(0xbf58_476d_1ce4_e5b9);
        mixed = (mixed ^ (mixed >> 27)).wrapping_mul(0x94d0_49bb_1331_11eb);
        mixed ^ (mixed >> 31)
    };
    (0..=variables).map(|_| word()).collect()
}

/// A hasher for words that are hashes already.
#[derive(Clone, Copy, Default)]
struct AsItIs(u64);

impl Hasher for AsItIs {
    fn write(&mut self, bytes: &[u8]) {
        for &byte in bytes {
            self.0 = self.0.rotate_left(8) ^ u64::from(byte);
        }
    }

    fn write_u64(&mut self, word: u64) {
        self.0 = word;
    }

    fn finish(&self) -> u64 {
        self.0
    }
}
