//! Splitting a sum of whole dollars among bearers in proportion to their weights.

use std::cmp::Reverse;
use std::collections::BTreeSet;

/// The largest sum that is split.
pub const SUM_LIMIT: u64 = 1_000_000_000;
/// The largest weight of a bearer.
pub const WEIGHT_LIMIT: u64 = 9_000_000_000;
/// The most bearers of a row.
pub const BEARERS_LIMIT: usize = 128;

/// Somebody who bears a part of a sum.
#[derive(Clone, Copy, Debug, PartialEq, Eq)]
pub struct Bearer {
    pub code: u32,
    pub weight: u64,
}

/// Why a sum is not split.
#[derive(Clone, Copy, Debug, PartialEq, Eq)]
pub enum Refusal {
    /// The sum, a weight or the number of bearers is above its limit.
    Limit,
    /// A code stands twice in the row.
    CodeTwice,
    /// There is a sum to bear and nobody with weight to bear it.
    NoWeight,
}

impl Refusal {
    /// The number by which a refusal is known.
    pub fn number(self) -> u8 {
        match self {
            Self::Limit => 1,
            Self::CodeTwice => 15,
            Self::NoWeight => 6,
        }
    }
}

/// A sum that was split.
#[derive(Clone, Debug, PartialEq, Eq)]
pub struct Split {
    pub sum: u64,
    /// All the weights together.
    pub total: u128,
    /// The dollars that the whole parts leave over.
    pub odd_dollars: u128,
    /// One share for each bearer, in the order of the bearers.
    pub shares: Vec<Share>,
}

/// What one bearer gets, and how it came about.
#[derive(Clone, Debug, PartialEq, Eq)]
pub struct Share {
    pub bearer: Bearer,
    /// `sum x weight / total`, rounded down.
    pub whole: u128,
    /// What that division left.
    pub remainder: u128,
    /// How many bearers come before this one for an odd dollar.
    pub rank: usize,
    /// Whether this bearer gets one of the odd dollars.
    pub gets_odd_dollar: bool,
}

impl Share {
    /// The dollars of the share.
    pub fn amount(&self) -> u128 {
        self.whole + u128::from(self.gets_odd_dollar)
    }
}

/// Splits a sum among bearers: to each the whole part of `sum x weight / total`, then the dollars left over one each to the
/// bearers with the largest remainders, between equal remainders to the lower code first.
pub fn split(sum: u64, bearers: &[Bearer]) -> Result<Split, Refusal> {
    let total = test(sum, bearers)?;

    let mut shares: Vec<Share> = bearers
        .iter()
        .map(|&bearer| {
            let product = u128::from(sum) * u128::from(bearer.weight);
            Share {
                bearer,
                // Without any weight the sum is 0, and so are whole part and remainder.
                whole: product.checked_div(total).unwrap_or(0),
                remainder: product.checked_rem(total).unwrap_or(0),
                rank: 0,
                gets_odd_dollar: false,
            }
        })
        .collect();

    let whole_parts: u128 = shares.iter().map(|share| share.whole).sum();
    let odd_dollars = u128::from(sum) - whole_parts;

    // The rank of a bearer is its position in the order by remainder, the largest first, then by code, the lowest first.
    let mut order: Vec<&mut Share> = shares.iter_mut().collect();
    order.sort_by_key(|share| (Reverse(share.remainder), share.bearer.code));
    for (rank, share) in order.into_iter().enumerate() {
        share.rank = rank;
        share.gets_odd_dollar = (rank as u128) < odd_dollars;
    }

    Ok(Split {
        sum,
        total,
        odd_dollars,
        shares,
    })
}

/// Tests the grounds of refusal in their order, at a sum of 0 too. Gives all the weights together.
fn test(sum: u64, bearers: &[Bearer]) -> Result<u128, Refusal> {
    if sum > SUM_LIMIT
        || bearers.len() > BEARERS_LIMIT
        || bearers.iter().any(|bearer| bearer.weight > WEIGHT_LIMIT)
    {
        return Err(Refusal::Limit);
    }

    let mut codes = BTreeSet::new();
    if !bearers.iter().all(|bearer| codes.insert(bearer.code)) {
        return Err(Refusal::CodeTwice);
    }

    let total = bearers.iter().map(|bearer| u128::from(bearer.weight)).sum();
    if sum > 0 && total == 0 {
        return Err(Refusal::NoWeight);
    }
    Ok(total)
}

#[cfg(test)]
mod tests {
    use super::*;
    use crate::generating::rows;
    use crate::random::Random;

    fn row(bearers: &[(u32, u64)]) -> Vec<Bearer> {
        bearers
            .iter()
            .map(|&(code, weight)| Bearer { code, weight })
            .collect()
    }

    fn amounts(sum: u64, bearers: &[(u32, u64)]) -> Vec<u128> {
        let split = split(sum, &row(bearers)).expect("accepted");
        split.shares.iter().map(Share::amount).collect()
    }

    fn refusal(sum: u64, bearers: &[Bearer]) -> Option<u8> {
        split(sum, bearers).err().map(Refusal::number)
    }

    #[test]
    fn equal_weights_give_the_odd_dollar_to_the_lowest_code() {
        assert_eq!(amounts(100, &[(11, 1), (12, 1), (13, 1)]), [34, 33, 33]);
        assert_eq!(amounts(100, &[(13, 1), (12, 1), (11, 1)]), [33, 33, 34]);
        assert_eq!(
            amounts(1, &[(u32::MAX, 1), (1 << 31, 1), (10, 1), (9, 1)]),
            [0, 0, 0, 1]
        );
    }

    #[test]
    fn the_largest_remainder_gets_the_odd_dollar() {
        let bearers = row(&[(1, 6), (2, 6), (3, 2)]);
        let split = split(10, &bearers).expect("accepted");
        assert_eq!((split.total, split.odd_dollars), (14, 1));
        let columns: Vec<_> = split
            .shares
            .iter()
            .map(|share| {
                (
                    share.whole,
                    share.remainder,
                    share.rank,
                    share.gets_odd_dollar,
                    share.amount(),
                )
            })
            .collect();
        assert_eq!(
            columns,
            [(4, 4, 1, false, 4), (4, 4, 2, false, 4), (1, 6, 0, true, 2)]
        );
    }

    #[test]
    fn a_bearer_without_weight_gets_nothing() {
        assert_eq!(amounts(7, &[(1, 0), (2, 5)]), [0, 7]);
        assert_eq!(amounts(1, &[(1, 0), (2, 1), (3, 1)]), [0, 1, 0]);
    }

    #[test]
    fn a_sum_of_nothing_gives_nothing_to_everybody() {
        assert_eq!(amounts(0, &[(1, 0), (2, 5)]), [0, 0]);
        assert_eq!(amounts(0, &[(2, 0), (1, 0)]), [0, 0]);
        assert!(amounts(0, &[]).is_empty());
        let split = split(0, &row(&[(2, 0), (3, 0), (1, 0)])).expect("accepted");
        let ranks: Vec<_> = split.shares.iter().map(|share| share.rank).collect();
        assert_eq!(ranks, [1, 2, 0]);
    }

    #[test]
    fn the_limits_themselves_are_accepted() {
        let bearers: Vec<Bearer> = (0..128)
            .map(|code| Bearer {
                code,
                weight: WEIGHT_LIMIT,
            })
            .collect();
        let split = split(SUM_LIMIT, &bearers).expect("accepted");
        assert!(split.shares.iter().all(|share| share.amount() == 7_812_500));
        assert_eq!(amounts(SUM_LIMIT, &[(0, WEIGHT_LIMIT)]), [1_000_000_000]);
    }

    #[test]
    fn above_a_limit_is_refused_1() {
        assert_eq!(refusal(SUM_LIMIT + 1, &row(&[(1, 1)])), Some(1));
        assert_eq!(refusal(u64::MAX, &[]), Some(1));
        for sum in [0, 1] {
            assert_eq!(
                refusal(sum, &row(&[(1, 1), (2, WEIGHT_LIMIT + 1)])),
                Some(1)
            );
            assert_eq!(refusal(sum, &row(&[(1, u64::MAX), (2, u64::MAX)])), Some(1));
            let many: Vec<Bearer> = (0..129).map(|code| Bearer { code, weight: 1 }).collect();
            assert_eq!(refusal(sum, &many), Some(1));
            assert_eq!(refusal(sum, &many[..128]), None);
        }
    }

    #[test]
    fn a_code_twice_is_refused_15() {
        for sum in [0, 1] {
            assert_eq!(refusal(sum, &row(&[(1, 1), (1, 2)])), Some(15));
            let mut far_apart: Vec<Bearer> =
                (0..128).map(|code| Bearer { code, weight: 1 }).collect();
            far_apart[127].code = 0;
            assert_eq!(refusal(sum, &far_apart), Some(15));
        }
    }

    #[test]
    fn a_sum_without_weight_is_refused_6() {
        assert_eq!(refusal(1, &row(&[(1, 0), (2, 0)])), Some(6));
        assert_eq!(refusal(1, &[]), Some(6));
        assert_eq!(refusal(0, &row(&[(1, 0), (2, 0)])), None);
        assert_eq!(refusal(0, &[]), None);
    }

    /// Every combination of the grounds: the first that holds, in the order 1, 15, 6, is the answer.
    #[test]
    fn refusals_are_tested_in_their_order() {
        for grounds in 0u32..32 {
            let holds = |ground: u32| grounds & (1 << ground) != 0;
            let (high_sum, high_weight, many, twice, no_weight) =
                (holds(0), holds(1), holds(2), holds(3), holds(4));
            let length = if many { 129 } else { 128 };
            let mut bearers: Vec<Bearer> = (0..length)
                .map(|code| Bearer {
                    code,
                    weight: u64::from(!no_weight),
                })
                .collect();
            if high_weight {
                bearers[100].weight = WEIGHT_LIMIT + 1;
            }
            if twice {
                bearers[1].code = bearers[127].code;
            }
            let sum = if high_sum { SUM_LIMIT + 1 } else { SUM_LIMIT };
            let expected = if high_sum || high_weight || many {
                Some(1)
            } else if twice {
                Some(15)
            } else if no_weight {
                Some(6)
            } else {
                None
            };
            assert_eq!(refusal(sum, &bearers), expected, "grounds {grounds:05b}");
        }
    }

    #[test]
    fn generated_rows_are_split_justly() {
        let mut random = Random::new(1);
        for _ in 0..5000 {
            let length = rows::length(&mut random);
            let rows::Row { sum, mut bearers } = rows::accepted(&mut random, length);
            let forward = split(sum, &bearers).expect("accepted");

            // The shares add up to the sum.
            let added: u128 = forward.shares.iter().map(Share::amount).sum();
            assert_eq!(added, u128::from(sum));

            // There are fewer odd dollars than bearers, if there are any.
            assert!(forward.odd_dollars == 0 || forward.odd_dollars < bearers.len() as u128);

            for share in &forward.shares {
                // Each share is less than one dollar from exact proportion.
                let product = u128::from(sum) * u128::from(share.bearer.weight);
                let distance = (share.amount() * forward.total).abs_diff(product);
                assert!(distance < forward.total || (forward.total == 0 && distance == 0));
                // An odd dollar goes only to a bearer whose division left something.
                assert!(share.remainder > 0 || !share.gets_odd_dollar);
                // The rank counts the bearers that come before.
                let before = forward
                    .shares
                    .iter()
                    .filter(|other| {
                        other.remainder > share.remainder
                            || (other.remainder == share.remainder
                                && other.bearer.code < share.bearer.code)
                    })
                    .count();
                assert_eq!(share.rank, before);
            }

            // The order of the row makes no difference to anybody's share.
            bearers.reverse();
            let mut backward = split(sum, &bearers).expect("accepted").shares;
            backward.reverse();
            assert_eq!(forward.shares, backward);
            random.shuffle(&mut bearers);
            let mut shuffled = split(sum, &bearers).expect("accepted").shares;
            let mut sorted = forward.shares;
            shuffled.sort_by_key(|share| share.bearer.code);
            sorted.sort_by_key(|share| share.bearer.code);
            assert_eq!(sorted, shuffled);
        }
    }
}
