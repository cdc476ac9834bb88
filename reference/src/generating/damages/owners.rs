//! Images with accounts whose owners are no participants, or whose owners have too much in them.

use crate::generating::rolls;
use crate::images::writing::image_of;
use crate::images::{Account, CODE_LIMIT, HOLDING_LIMIT, Roll};
use crate::random::Random;

use super::Image;

/// Codes near at hand that no participant has: those of accounts, the lowest and the highest, and some that differ little from
/// a participant's. There is always one.
pub fn strangers(roll: &Roll) -> Vec<u32> {
    let accounts = roll.accounts.iter().map(|account| account.code);
    let close = roll.participants.iter().flat_map(|participant| {
        let code = participant.code;
        [code - 1, code + 1, code ^ 1 << 8, code ^ 1 << 16]
    });
    accounts
        .chain([1, CODE_LIMIT])
        .chain(close)
        .filter(|code| (1..=CODE_LIMIT).contains(code))
        .filter(|&code| roll.participants.iter().all(|one| one.code != code))
        .collect()
}

/// Accounts whose owner is no participant: each in turn, and the last together with another. With four accounts and two
/// participants some strangers' codes are those of accounts.
pub fn strange_owners(random: &mut Random) -> Vec<Image> {
    let roll = rolls::good(random, (2, 4));
    let strangers = strangers(&roll);
    let owned = |strange: &[(usize, u32)]| {
        let mut copy = roll.clone();
        for &(account, owner) in strange {
            copy.accounts[account].owner = owner;
        }
        image_of(&copy)
    };
    let mut images = Vec::new();
    for account in 0..4 {
        for &stranger in strangers.iter().take(8) {
            images.push(owned(&[(account, stranger)]));
        }
        let (one, other) = (random.pick(&strangers), random.pick(&strangers));
        images.push(owned(&[(account, one), (3, other)]));
    }
    images
}

/// Accounts that hold all that they may, and the same with a dollar more in each account in turn, or in two.
pub fn filled_and_overfilled(random: &mut Random) -> Vec<Image> {
    let mut images = Vec::new();
    for size in [(1, 1), (2, 3), (3, 6), (4, 8)] {
        let mut roll = rolls::good(random, size);
        rolls::fill(random, &mut roll);
        images.push(image_of(&roll));
        for place in 0..size.1 {
            let mut overfilled = roll.clone();
            add_dollar(random, &mut overfilled.accounts[place]);
            images.push(image_of(&overfilled));
            let other = random.index(size.1);
            add_dollar(random, &mut overfilled.accounts[other]);
            images.push(image_of(&overfilled));
        }
    }
    images
}

/// Adds a dollar to either column of an account in which there is room for it.
pub fn add_dollar(random: &mut Random, account: &mut Account) {
    let funds_first = random.percent(50);
    if account.overnight >= HOLDING_LIMIT || (funds_first && account.funds < HOLDING_LIMIT) {
        account.funds += 1;
    } else {
        account.overnight += 1;
    }
}
