//! Rolls that a book can be opened from.

use crate::images::{
    ACCOUNTS_LIMIT, Account, CODE_LIMIT, COMMITMENT_LIMIT, HOLDING_LIMIT, PARTICIPANTS_LIMIT,
    Participant, Roll,
};
use crate::random::Random;

/// How many participants and how many accounts a roll has.
pub type Size = (usize, usize);

pub const LARGEST: Size = (PARTICIPANTS_LIMIT, ACCOUNTS_LIMIT);

/// Mostly a few of each, now and then as many as there may be.
pub fn size(random: &mut Random) -> Size {
    let few = (random.between(1, 4) as usize, random.index(6));
    match random.below(200) {
        0..170 => few,
        170..194 => (
            random.between(3, 10) as usize,
            random.between(3, 14) as usize,
        ),
        194 | 195 => (PARTICIPANTS_LIMIT, few.1),
        196 => (few.0, ACCOUNTS_LIMIT),
        197 => (PARTICIPANTS_LIMIT - 1, ACCOUNTS_LIMIT - 1),
        _ => LARGEST,
    }
}

/// A roll of records without faults. Its size may be any, also past the limits.
pub fn good(random: &mut Random, (participants, accounts): Size) -> Roll {
    let participants: Vec<Participant> = codes(random, participants)
        .into_iter()
        .map(|code| participant(random, code))
        .collect();
    let owners = owners(random, &participants, accounts);
    let codes = account_codes(random, &participants, accounts);
    let mut accounts: Vec<Account> = codes
        .into_iter()
        .zip(owners)
        .map(|(code, owner)| Account::new(code, owner, 0, 0))
        .collect();
    for participant in &participants {
        let mut room = HOLDING_LIMIT;
        for account in accounts_of(&mut accounts, participant.code) {
            account.funds = deposit(random, &mut room);
            account.overnight = deposit(random, &mut room);
        }
    }
    Roll {
        participants,
        accounts,
    }
}

/// Fills the accounts of every owner with all the dollars that they may hold together.
pub fn fill(random: &mut Random, roll: &mut Roll) {
    for participant in &roll.participants {
        let accounts: Vec<&mut Account> =
            accounts_of(&mut roll.accounts, participant.code).collect();
        let parts = parts(random, HOLDING_LIMIT, 2 * accounts.len());
        for (account, &[funds, overnight]) in accounts.into_iter().zip(parts.as_chunks().0) {
            account.funds = funds;
            account.overnight = overnight;
        }
    }
}

fn accounts_of(accounts: &mut [Account], owner: u32) -> impl Iterator<Item = &mut Account> {
    accounts
        .iter_mut()
        .filter(move |account| account.owner == owner)
}

fn participant(random: &mut Random, code: u32) -> Participant {
    Participant {
        code,
        futures_commitment: commitment(random),
        otc_commitment: commitment(random),
        quarterly_margin: commitment(random),
        adjusted_commitment: commitment(random),
        scope_mark: random.below(2) as u8,
    }
}

/// Dollars of a participant, often at their limits or where another byte begins.
fn commitment(random: &mut Random) -> u32 {
    let limit = COMMITMENT_LIMIT.into();
    let dollars = match random.below(10) {
        0 | 1 => 0,
        2 | 3 => limit,
        4 => limit - random.below(3),
        5 => byte_edge(random, 31),
        6 | 7 => 1_000_000 * random.between(1, 400),
        _ => random.between(0, limit),
    };
    dollars as u32
}

/// Dollars of an account, as many at most as there is room for, which they take.
fn deposit(random: &mut Random, room: &mut u64) -> u64 {
    let wanted = match random.below(10) {
        0 | 1 => 0,
        2 => *room,
        3 => room.saturating_sub(random.below(3)),
        4 => byte_edge(random, 33),
        5 | 6 => 1_000_000 * random.between(1, 900),
        7 => random.between(0, *room),
        _ => random.between(0, *room / 8),
    };
    let dollars = wanted.min(*room);
    *room -= dollars;
    dollars
}

/// A power of two, at most this one, or the number before it.
fn byte_edge(random: &mut Random, power: u64) -> u64 {
    let power = random.pick(&[0, 7, 8, 15, 16, 24, 31, 32, 33]).min(power);
    (1 << power) - random.below(2)
}

/// Different codes: low ones, the highest, or any.
fn codes(random: &mut Random, length: usize) -> Vec<u32> {
    let last_first = u64::from(CODE_LIMIT) + 1 - length as u64;
    let first = match random.below(10) {
        0..4 => 1,
        4 | 5 => last_first,
        6 => random.between(1, last_first),
        _ => return scattered_codes(random, length),
    };
    let mut codes: Vec<u32> = (first as u32..).take(length).collect();
    if random.percent(70) {
        random.shuffle(&mut codes);
    }
    codes
}

fn scattered_codes(random: &mut Random, length: usize) -> Vec<u32> {
    let mut codes = Vec::with_capacity(length);
    while codes.len() < length {
        let code = match random.below(10) {
            0 => 1,
            1 => CODE_LIMIT,
            2 => byte_edge(random, 16).max(1) as u32,
            _ => random.between(1, CODE_LIMIT.into()) as u32,
        };
        if !codes.contains(&code) {
            codes.push(code);
        }
    }
    codes
}

/// Codes of accounts, in three rolls of ten those of participants as far as they go.
fn account_codes(random: &mut Random, participants: &[Participant], length: usize) -> Vec<u32> {
    let mut codes = codes(random, length);
    if random.percent(30) {
        let shared: Vec<u32> = participants.iter().map(|one| one.code).collect();
        codes.retain(|code| !shared.contains(code));
        codes.splice(0..0, shared);
        codes.truncate(length);
        random.shuffle(&mut codes);
    }
    codes
}

/// An owner for each account: in turn, always one, or any.
fn owners(random: &mut Random, participants: &[Participant], length: usize) -> Vec<u32> {
    let count = participants.len();
    let style = random.below(10);
    let one = random.index(count);
    (0..length)
        .map(|place| match style {
            0..3 => place % count,
            3 => one,
            4 => count - 1,
            _ => random.index(count),
        })
        .map(|owner| participants[owner].code)
        .collect()
}

/// So many numbers that are a total together.
fn parts(random: &mut Random, total: u64, count: usize) -> Vec<u64> {
    let mut cuts: Vec<u64> = (1..count)
        .map(|_| match random.below(6) {
            0 => 0,
            1 => total,
            2 => total / 2,
            _ => random.between(0, total),
        })
        .collect();
    cuts.sort();
    cuts.push(total);
    let mut before = 0;
    let parts = cuts.into_iter().map(|cut| {
        let part = cut - before;
        before = cut;
        part
    });
    let mut parts: Vec<u64> = parts.take(count).collect();
    random.shuffle(&mut parts);
    parts
}

#[cfg(test)]
mod tests {
    use super::*;
    use crate::images::read_image;
    use crate::images::writing::image_of;

    #[test]
    fn good_rolls_open_books() {
        let mut random = Random::new(1);
        for _ in 0..2000 {
            let size = size(&mut random);
            let mut roll = good(&mut random, size);
            assert_eq!((roll.participants.len(), roll.accounts.len()), size);
            assert_eq!(read_image(&image_of(&roll)).as_ref(), Ok(&roll));

            fill(&mut random, &mut roll);
            assert_eq!(read_image(&image_of(&roll)).as_ref(), Ok(&roll));
            for account in &roll.accounts {
                assert_eq!(roll.holding(account.owner), HOLDING_LIMIT.into());
            }
        }
    }
}
