//! Images whose head is good, with fields at and past their limits and with codes twice.

use crate::generating::rolls::{self, Size};
use crate::images::writing::{image_of, put};
use crate::images::{ACCOUNT_BYTES, HEAD_BYTES, PARTICIPANT_BYTES, image_length};
use crate::random::Random;

use super::{Image, changed};

/// A field of a record: at which byte of the record it begins, how many bytes it has, and what is worth writing into it.
pub struct Field {
    pub at: usize,
    pub bytes: usize,
    pub edges: &'static [u64],
}

const CODE_EDGES: &[u64] = &[0, 1, 999_999, 1_000_000, 0xffff_ffff];
const COMMITMENT_EDGES: &[u64] = &[0, 4_000_000_000, 4_000_000_001, 0xffff_ffff];
const HOLDING_EDGES: &[u64] = &[0, 9_000_000_000, 9_000_000_001, 1 << 63, u64::MAX];
const MARK_EDGES: &[u64] = &[0, 1, 2, 255];

const fn field(at: usize, bytes: usize, edges: &'static [u64]) -> Field {
    Field { at, bytes, edges }
}

const PARTICIPANT_FIELDS: [Field; 6] = [
    field(0, 4, CODE_EDGES),
    field(4, 4, COMMITMENT_EDGES),
    field(8, 4, COMMITMENT_EDGES),
    field(12, 4, COMMITMENT_EDGES),
    field(16, 4, COMMITMENT_EDGES),
    field(20, 1, MARK_EDGES),
];

const ACCOUNT_FIELDS: [Field; 4] = [
    field(0, 4, CODE_EDGES),
    field(4, 4, CODE_EDGES),
    field(8, 8, HOLDING_EDGES),
    field(16, 8, HOLDING_EDGES),
];

/// Where the records of one kind stand in an image.
pub struct Table {
    first: usize,
    pub records: usize,
    record_bytes: usize,
    pub fields: &'static [Field],
}

impl Table {
    /// The byte at which a record begins.
    pub fn at(&self, record: usize) -> usize {
        self.first + self.record_bytes * record
    }

    /// The byte at which each field of each record begins, and the field.
    fn every_field(&self) -> impl Iterator<Item = (usize, &'static Field)> {
        (0..self.records).flat_map(|record| {
            let first = self.at(record);
            self.fields
                .iter()
                .map(move |field| (first + field.at, field))
        })
    }

    /// Gives a record the code of another one of the table.
    pub fn copy_code(&self, image: &mut Image, from: usize, to: usize) {
        let from = self.at(from);
        image.copy_within(from..from + 4, self.at(to));
    }
}

/// The participants and the accounts of an image.
pub fn tables((participants, accounts): Size) -> [Table; 2] {
    [
        Table {
            first: HEAD_BYTES,
            records: participants,
            record_bytes: PARTICIPANT_BYTES,
            fields: &PARTICIPANT_FIELDS,
        },
        Table {
            first: image_length(participants, 0),
            records: accounts,
            record_bytes: ACCOUNT_BYTES,
            fields: &ACCOUNT_FIELDS,
        },
    ]
}

/// Every field of every record with each of the numbers worth writing into it, in a roll whose accounts are empty otherwise.
pub fn field_edges(random: &mut Random) -> Vec<Image> {
    let mut roll = rolls::good(random, (2, 2));
    for account in &mut roll.accounts {
        (account.funds, account.overnight) = (0, 0);
    }
    let image = image_of(&roll);
    let mut images = Vec::new();
    for table in tables((2, 2)) {
        for (at, field) in table.every_field() {
            for &edge in field.edges {
                images.push(changed(&image, |copy| put(copy, at, field.bytes, edge)));
            }
        }
    }
    images
}

/// Which record of five gives its code to which other one: neighbours, first and last, three and all alike, two pairs.
const TWICE: [&[(usize, usize)]; 14] = [
    &[(0, 1)],
    &[(1, 0)],
    &[(3, 4)],
    &[(0, 4)],
    &[(1, 3)],
    &[(2, 3)],
    &[(0, 1), (0, 2)],
    &[(0, 2), (0, 4)],
    &[(2, 3), (2, 4)],
    &[(0, 1), (0, 2), (0, 3), (0, 4)],
    &[(0, 1), (3, 4)],
    &[(0, 4), (1, 2)],
    &[(0, 3), (1, 4)],
    &[(1, 4), (2, 3)],
];

/// Codes twice among the participants, among the accounts, and among both.
pub fn codes_twice(random: &mut Random) -> Vec<Image> {
    let size = (5, 5);
    let image = image_of(&rolls::good(random, size));
    let [participants, accounts] = tables(size);
    let copied = |tables: &[&Table], copies: &[(usize, usize)]| {
        changed(&image, |copy| {
            for table in tables {
                for &(from, to) in copies {
                    table.copy_code(copy, from, to);
                }
            }
        })
    };
    TWICE
        .into_iter()
        .flat_map(|copies| {
            [
                copied(&[&participants], copies),
                copied(&[&accounts], copies),
                copied(&[&participants, &accounts], copies),
            ]
        })
        .collect()
}

#[cfg(test)]
mod tests {
    use super::*;
    use crate::generating::damages::numbers;

    #[test]
    fn edges_are_on_both_sides_of_every_limit() {
        let images = field_edges(&mut Random::new(1));
        let numbers = numbers(&images);
        // Two of the numbers that are written into a field are within its limits.
        let within = numbers.iter().filter(|&&one| one != 14).count();
        assert_eq!(within, 2 * (2 * 6 + 2 * 4));
        assert_eq!(images.len(), 2 * (5 + 4 * 4 + 4) + 2 * (5 + 5 + 5 + 5));
    }
}
