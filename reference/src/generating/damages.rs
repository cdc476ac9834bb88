//! Images with faults, in whole families: every byte changed in turn, cut off at every length, heads that say something else
//! than what follows, fields at and past their limits, codes twice, unknown owners, accounts that hold too much, and several
//! faults at once.

mod heads;
mod owners;
mod records;

use crate::images::writing::{image_of, put};
use crate::images::{HEAD_BYTES, HOLDING_LIMIT, Roll};
use crate::random::Random;

use super::rolls::{self, LARGEST, Size};
use heads::{cut_off, flipped, lengthened, miscounted, misstated, other_versions};
use owners::{add_dollar, filled_and_overfilled, strange_owners, strangers};
use records::{codes_twice, field_edges, tables};

type Image = Vec<u8>;

/// The families of images in which each fault is made in turn.
pub fn one_by_one(random: &mut Random) -> Vec<Image> {
    let small = image_of(&rolls::good(random, (2, 2)));
    let smaller = image_of(&rolls::good(random, (1, 1)));
    [
        flipped(&small),
        cut_off(&smaller),
        lengthened(&small),
        miscounted((2, 2), &small),
        misstated(&small),
        other_versions(&small),
        field_edges(random),
        codes_twice(random),
        strange_owners(random),
        filled_and_overfilled(random),
        large(random),
    ]
    .concat()
}

/// A copy with something changed.
fn changed(image: &[u8], change: impl FnOnce(&mut Image)) -> Image {
    let mut copy = image.to_vec();
    change(&mut copy);
    copy
}

/// The largest image, with faults in its last records, and rolls with one record too many.
fn large(random: &mut Random) -> Vec<Image> {
    let mut roll = rolls::good(random, LARGEST);
    rolls::fill(random, &mut roll);
    let image = image_of(&roll);
    let [participants, accounts] = tables(LARGEST);
    let (last_participant, last_account) = (participants.at(63), accounts.at(127));
    let mut overfilled = roll.clone();
    add_dollar(random, &mut overfilled.accounts[127]);
    let mut strange = roll.clone();
    strange.accounts[127].owner = strangers(&roll)[0];
    vec![
        changed(&image, |copy| participants.copy_code(copy, 0, 63)),
        changed(&image, |copy| accounts.copy_code(copy, 0, 127)),
        changed(&image, |copy| copy[last_participant + 20] = 2),
        changed(&image, |copy| put(copy, last_account + 16, 8, u64::MAX)),
        changed(&image, |copy| copy.truncate(image.len() - 1)),
        image_of(&overfilled),
        image_of(&strange),
        image_of(&rolls::good(random, (65, 0))),
        image_of(&rolls::good(random, (1, 129))),
        image_of(&rolls::good(random, (65, 129))),
        image,
    ]
}

/// Two images: a good one, and the same without its last participant, so that the owner of an account is known to the book
/// that was opened before, and to it alone.
pub fn orphaned(random: &mut Random) -> [Image; 2] {
    let size = (random.between(2, 6) as usize, random.between(1, 6) as usize);
    let mut roll = rolls::good(random, size);
    let before = image_of(&roll);
    let leaving = roll.participants.pop().map_or(0, |last| last.code);
    let account = random.index(size.1);
    roll.accounts[account].owner = leaving;
    [before, image_of(&roll)]
}

/// A few bytes by chance, half of them with a good version.
pub fn noise(random: &mut Random) -> Image {
    let length = random.between(1, 60);
    let mut image: Image = (0..length).map(|_| random.below(256) as u8).collect();
    if random.percent(50) {
        image[0] = 1;
    }
    image
}

/// Two to four faults in the records of a roll, and in three images of ten one or two in the head too.
pub fn several(random: &mut Random) -> Image {
    let size = (random.between(2, 6) as usize, random.between(2, 8) as usize);
    let mut roll = rolls::good(random, size);
    let faults = random.pick(&[2, 2, 3, 4]);
    let (in_roll, in_image): (Vec<u64>, Vec<u64>) = (0..faults)
        .map(|_| random.below(100))
        .partition(|&draw| draw < 45);
    for _ in in_roll {
        damage_account(random, &mut roll);
    }
    let mut image = image_of(&roll);
    for _ in in_image {
        damage_record(random, size, &mut image);
    }
    if random.percent(30) {
        for _ in 0..random.between(1, 2) {
            damage_head(random, &mut image);
        }
    }
    image
}

/// Gives an account a strange owner, or more money than it may hold.
fn damage_account(random: &mut Random, roll: &mut Roll) {
    let strangers = strangers(roll);
    let account = random.index(roll.accounts.len());
    let account = &mut roll.accounts[account];
    if random.percent(50) {
        account.owner = random.pick(&strangers);
    } else {
        (account.funds, account.overnight) = (HOLDING_LIMIT, HOLDING_LIMIT);
    }
}

/// Gives a record of either table the code of another, or writes over one of its fields.
fn damage_record(random: &mut Random, size: Size, image: &mut Image) {
    let table = &tables(size)[random.index(2)];
    let record = random.index(table.records);
    if random.percent(65) {
        table.copy_code(image, random.index(table.records), record);
    } else {
        let field = &table.fields[random.index(table.fields.len())];
        let edge = random.pick(field.edges);
        put(image, table.at(record) + field.at, field.bytes, edge);
    }
}

/// Writes over a whole head, or changes the number of bytes.
fn damage_head(random: &mut Random, image: &mut Image) {
    if image.len() < HEAD_BYTES {
        return;
    }
    match random.below(7) {
        0 => image[0] = random.pick(&[0, 2, 255]),
        1 => image[5] = random.pick(&[0, 1, 64, 65, 255]),
        2 => image[6] = random.pick(&[0, 1, 128, 129, 255]),
        3 => image[4] = image[4].wrapping_add(random.pick(&[1, 255])),
        4 => image.push(random.below(256) as u8),
        5 => image.truncate(image.len() - 1),
        _ => image.truncate(HEAD_BYTES - 1),
    }
}

/// Numbers of the first faults of some images, 0 for good ones.
#[cfg(test)]
fn numbers(images: &[Image]) -> Vec<u32> {
    use crate::images::faults;
    let first = |image: &Image| faults(image).first().map_or(0, |fault| fault.number);
    images.iter().map(first).collect()
}

#[cfg(test)]
mod tests {
    use super::*;

    #[test]
    fn families_have_the_faults_that_they_are_named_for() {
        for seed in 0..50 {
            let random = &mut Random::new(seed);
            let twice = numbers(&codes_twice(random));
            assert!(twice.iter().all(|&one| one == 15));
            let strange = numbers(&strange_owners(random));
            assert!(strange.iter().all(|&one| one == 16));
            assert_eq!(numbers(&orphaned(random)), [0, 16]);
            let filled = numbers(&filled_and_overfilled(random));
            assert_eq!(filled.iter().filter(|&&one| one == 0).count(), 4);
            assert!(filled.iter().all(|&one| one == 0 || one == 17));
            let large = numbers(&large(random));
            assert_eq!(large, [15, 15, 14, 14, 13, 17, 16, 14, 14, 14, 0]);
        }
    }
}
