//! Sums and rows of bearers: such as are split, with many equal remainders among them, and such as are refused.

use crate::random::Random;
use crate::splitting::{BEARERS_LIMIT, Bearer, SUM_LIMIT, WEIGHT_LIMIT};

/// A sum and the bearers it is to be split among.
#[derive(Clone, Debug)]
pub struct Row {
    pub sum: u64,
    pub bearers: Vec<Bearer>,
}

/// How many bearers: mostly a few, now and then a long row up to the most there may be.
pub fn length(random: &mut Random) -> usize {
    let length = match random.below(1000) {
        0..15 => 0,
        15..120 => 1,
        120..300 => 2,
        300..830 => random.between(3, 6),
        830..965 => random.between(7, 12),
        965..988 => random.between(13, 40),
        988..991 => random.between(41, 126),
        991..995 => 127,
        _ => BEARERS_LIMIT as u64,
    };
    length as usize
}

/// A row of this length, of at most [`BEARERS_LIMIT`], that is accepted.
pub fn accepted(random: &mut Random, length: usize) -> Row {
    let (sum, weights) = match random.below(100) {
        0..12 if length >= 2 => equal_remainders(random, length),
        12..20 if (2..=12).contains(&length) => close_remainders(random, length),
        _ => {
            let weights = weights(random, length);
            (sum_for(random, &weights), weights)
        }
    };
    // Without weight only a sum of 0 is accepted.
    let sum = if weights.iter().all(|&weight| weight == 0) {
        0
    } else {
        sum
    };
    Row {
        sum,
        bearers: coded(random, weights),
    }
}

/// A row that is refused, on one ground or several at once.
pub fn refused(random: &mut Random) -> Row {
    let grounds = Grounds::any(random);

    let length = if grounds.many_bearers {
        match random.below(2) {
            0 => BEARERS_LIMIT + 1,
            _ => random.between(130, 140) as usize,
        }
    } else if grounds.code_twice {
        match random.below(20) {
            0 => BEARERS_LIMIT,
            _ => random.between(2, 12) as usize,
        }
    } else if grounds.high_weight {
        random.between(1, 12) as usize
    } else {
        random.between(0, 12) as usize
    };

    let mut weights = if grounds.no_weight {
        vec![0; length]
    } else if length > 12 {
        (0..length).map(|_| random.below(10)).collect()
    } else {
        weights(random, length)
    };
    let mut sum = sum_for(random, &weights);
    if grounds.no_weight {
        sum = sum.max(1);
    }
    if grounds.high_sum {
        sum = above(random, SUM_LIMIT);
    }
    if grounds.high_weight {
        for _ in 0..random.between(1, 2) {
            let place = match random.below(3) {
                0 => 0,
                1 => length - 1,
                _ => random.index(length),
            };
            weights[place] = above(random, WEIGHT_LIMIT);
        }
        // All the weights together do not fit 64 bits.
        if random.percent(10) {
            weights.fill(u64::MAX);
        }
    }

    let mut bearers = coded(random, weights);
    if grounds.code_twice {
        let (one, other) = match random.below(3) {
            0 => (0, length - 1),
            1 => {
                let one = random.index(length - 1);
                (one, one + 1)
            }
            _ => {
                let one = random.index(length - 1);
                (one, one + 1 + random.index(length - 1 - one))
            }
        };
        bearers[other].code = bearers[one].code;
        if random.percent(30) {
            bearers[other].weight = bearers[one].weight;
        }
    }
    Row { sum, bearers }
}

/// The grounds on which a row is to be refused.
#[derive(Default)]
struct Grounds {
    high_sum: bool,
    high_weight: bool,
    many_bearers: bool,
    code_twice: bool,
    no_weight: bool,
}

impl Grounds {
    /// At least one ground, often more.
    fn any(random: &mut Random) -> Self {
        let mut grounds = Self::default();
        let more = random.pick(&[1, 1, 1, 2, 2, 3]);
        for _ in 0..more {
            let ground = match random.below(100) {
                0..22 => &mut grounds.high_sum,
                22..44 => &mut grounds.high_weight,
                44..54 => &mut grounds.many_bearers,
                54..78 => &mut grounds.code_twice,
                _ => &mut grounds.no_weight,
            };
            *ground = true;
        }
        grounds
    }
}

/// A number above a limit: just above, well above, or as high as 64 bits go.
fn above(random: &mut Random, limit: u64) -> u64 {
    match random.below(10) {
        0..5 => limit + 1,
        5..7 => limit + random.between(2, 20),
        7 => limit * random.between(2, 100),
        8 => random.between(limit + 1, u64::MAX),
        _ => u64::MAX - random.below(2),
    }
}

/// Weights within their limit, in most styles with many of them equal.
fn weights(random: &mut Random, length: usize) -> Vec<u64> {
    match random.below(100) {
        // All equal.
        0..15 => {
            let weight = random.pick(&[1, 1, 2, 3, 7, 1000, WEIGHT_LIMIT - 1, WEIGHT_LIMIT]);
            vec![weight; length]
        }
        // Two or three different ones.
        15..35 => {
            let some = [random.below(20), random.below(1000), random.between(1, 9)];
            repeat(length, || random.pick(&some))
        }
        // Small ones.
        35..55 => repeat(length, || random.below(6)),
        // Mostly none.
        55..65 => repeat(length, || {
            if random.percent(75) {
                0
            } else {
                random.between(1, 50)
            }
        }),
        // Near and at the limit.
        65..73 => repeat(length, || WEIGHT_LIMIT - random.below(4)),
        // Far apart.
        73..78 => repeat(length, || {
            random.pick(&[0, 1, 2, WEIGHT_LIMIT - 1, WEIGHT_LIMIT])
        }),
        // Multiples of one.
        78..86 => {
            let unit = random.between(1, 1_000_000);
            repeat(length, || unit * random.below(5))
        }
        // Middling and any.
        86..92 => repeat(length, || random.below(10_000)),
        92..96 => repeat(length, || random.between(0, WEIGHT_LIMIT)),
        // None at all.
        _ => vec![0; length],
    }
}

fn repeat(length: usize, weight: impl FnMut() -> u64) -> Vec<u64> {
    std::iter::repeat_with(weight).take(length).collect()
}

/// A sum within its limit that tells something about these weights.
fn sum_for(random: &mut Random, weights: &[u64]) -> u64 {
    let total: u64 = weights
        .iter()
        .fold(0, |total, &weight| total.saturating_add(weight));
    let about =
        |random: &mut Random, number: u64| number.saturating_add(random.below(3)).saturating_sub(1);
    let sum = match random.below(100) {
        0..7 => 0,
        7..14 => 1,
        14..30 => random.between(2, 20),
        30..40 => about(random, weights.len() as u64),
        40..48 => about(random, total),
        // Above all the weights.
        48..56 => {
            let times = random.between(2, 9);
            about(random, total.saturating_mul(times))
        }
        // Below all the weights, dividing them or nearly so.
        56..66 => {
            let parts = random.between(2, 12);
            about(random, total / parts)
        }
        66..74 => random.between(0, total.min(SUM_LIMIT)),
        74..84 => random.below(100_000),
        84..92 => random.between(0, SUM_LIMIT),
        92..96 => SUM_LIMIT,
        _ => SUM_LIMIT - random.below(5),
    };
    sum.min(SUM_LIMIT)
}

/// Different weights with equal remainders: where all the weights together are `parts` times the sum, weights that are equal
/// modulo `parts` leave equal remainders.
fn equal_remainders(random: &mut Random, length: usize) -> (u64, Vec<u64>) {
    let sum = random.between(1, 60);
    let parts = random.between(2, 9);
    let mut left = sum * parts;
    let mut weights: Vec<u64> = (1..length)
        .map(|_| {
            let weight = random.below(2 * left / length as u64 + 2).min(left);
            left -= weight;
            weight
        })
        .collect();
    weights.push(left);
    random.shuffle(&mut weights);
    (sum, weights)
}

/// Remainders that are equal or differ by one in numbers of ten digits: where all the weights together are `step` times the
/// sum, give or take one, weights that differ by `step` leave remainders that differ by nothing or by one.
fn close_remainders(random: &mut Random, length: usize) -> (u64, Vec<u64>) {
    let sum = random.between(SUM_LIMIT / 2, SUM_LIMIT);
    let step = random.between(2, 8);
    let total = step * sum + random.below(3) - 1;
    let first = random.below(total / 20);
    let mut weights: Vec<u64> = (1..length as u64)
        .map(|place| first + place * step)
        .collect();
    weights.push(total - weights.iter().sum::<u64>());
    random.shuffle(&mut weights);
    (sum, weights)
}

/// Gives every weight a code of its own.
fn coded(random: &mut Random, weights: Vec<u64>) -> Vec<Bearer> {
    let length = weights.len();
    let mut codes: Vec<u32> = match random.below(100) {
        0..45 => consecutive(random.between(0, 12) as u32, length),
        45..60 => consecutive(random.below(1 << 31) as u32, length),
        60..70 => consecutive((1 << 31) - (length / 2) as u32, length),
        70..78 => consecutive(u32::MAX - length.saturating_sub(1) as u32, length),
        style => {
            let mut codes = Vec::with_capacity(length);
            while codes.len() < length {
                let code = if style < 90 && random.percent(50) {
                    random.pick(&[
                        0,
                        1,
                        (1 << 31) - 1,
                        1 << 31,
                        (1 << 31) + 1,
                        u32::MAX - 1,
                        u32::MAX,
                    ])
                } else {
                    random.any() as u32
                };
                if !codes.contains(&code) {
                    codes.push(code);
                }
            }
            codes
        }
    };
    match random.below(10) {
        0..3 => codes.sort(),
        3..5 => codes.sort_by(|one, other| other.cmp(one)),
        _ => random.shuffle(&mut codes),
    }
    codes
        .into_iter()
        .zip(weights)
        .map(|(code, weight)| Bearer { code, weight })
        .collect()
}

fn consecutive(first: u32, length: usize) -> Vec<u32> {
    (first..=u32::MAX).take(length).collect()
}
