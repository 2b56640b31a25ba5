//! An axis: where a number lies on it, and the round numbers that are written along it.

/// Where values spread over more than this factor, equal factors take equal room.
const FACTOR_MOST: u64 = 50;

/// The room between 0 and 1 on an axis of equal factors, which has no place for 0, in decades.
const ROOM_OF_ZERO: f64 = 0.5;

/// An axis from 0 up to a most value, which is at least 1.
#[derive(Clone, Copy, Debug, PartialEq)]
pub enum Scale {
    /// Equal differences take equal room.
    Linear { most: u64 },
    /// Equal factors take equal room, from 1 up.
    Logarithmic { most: u64 },
}

impl Scale {
    /// The axis for these values.
    pub fn of(values: impl Iterator<Item = u64> + Clone) -> Scale {
        let most = values.clone().max().unwrap_or(0).max(1);
        let least = values.filter(|&value| value > 0).min().unwrap_or(1);
        match most > least.saturating_mul(FACTOR_MOST) {
            true => Scale::Logarithmic { most },
            false => Scale::Linear { most },
        }
    }

    /// Where a value lies: 0 at the lower end, 1 at the upper.
    pub fn share(self, value: u64) -> f64 {
        match self {
            Scale::Linear { most } => value as f64 / most as f64,
            Scale::Logarithmic { .. } if value == 0 => 0.0,
            Scale::Logarithmic { most } => {
                let decades = |value: u64| ROOM_OF_ZERO + (value as f64).log10();
                decades(value) / decades(most)
            }
        }
    }

    /// The round numbers along the axis, rising from 0.
    pub fn marks(self) -> Vec<u64> {
        match self {
            Scale::Linear { most } => round_numbers(most, 6),
            Scale::Logarithmic { most } => {
                let powers = powers_of_ten().take_while(|&power| power <= most);
                [0].into_iter().chain(powers).collect()
            }
        }
    }

    /// The numbers between the round ones that show that equal factors take equal room.
    pub fn small_marks(self) -> Vec<u64> {
        match self {
            Scale::Linear { .. } => Vec::new(),
            Scale::Logarithmic { most } => powers_of_ten()
                .take_while(|&power| power <= most)
                .flat_map(|power| (2..10).map(move |digit| power.saturating_mul(digit)))
                .take_while(|&mark| mark <= most)
                .collect(),
        }
    }
}

/// The multiples of a 1, 2 or 5 with zeros behind it from 0 up to `most`, so that there are no more than `count` above 0.
pub fn round_numbers(most: u64, count: u64) -> Vec<u64> {
    let mut distances =
        powers_of_ten().flat_map(|power| [1, 2, 5].map(|digit| power.saturating_mul(digit)));
    let distance = distances.find(|distance| most / distance <= count.max(1));
    let distance = distance.unwrap_or(most.max(1));
    (0..=most / distance)
        .map(|number| number * distance)
        .collect()
}

/// 1, 10, 100 and so on, as far as numbers go.
fn powers_of_ten() -> impl Iterator<Item = u64> {
    std::iter::successors(Some(1), |power: &u64| power.checked_mul(10))
}
