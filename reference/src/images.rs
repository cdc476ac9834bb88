//! The roll image: the participants and the accounts of a book in a row of bytes, and the faults on which an opening is
//! refused.
//!
//! Three layers look for faults, one after the other: at the head, at each field by itself, at the records against each other.
//! The first fault found is the answer.

pub mod writing;

#[cfg(test)]
mod tests;

use std::collections::BTreeSet;
use std::ops::RangeInclusive;

/// The one version of images that there is.
pub const VERSION: u8 = 1;
pub const HEAD_BYTES: usize = 7;
pub const PARTICIPANT_BYTES: usize = 21;
pub const ACCOUNT_BYTES: usize = 24;

/// The most participants of a roll. There is at least one.
pub const PARTICIPANTS_LIMIT: usize = 64;
/// The most accounts of a roll. There may be none.
pub const ACCOUNTS_LIMIT: usize = 128;
/// The highest code. The lowest is 1.
pub const CODE_LIMIT: u32 = 999_999;
/// The most dollars in each of a participant's fields.
pub const COMMITMENT_LIMIT: u32 = 4_000_000_000;
/// The most dollars in each field of an account, and in all the accounts of one participant together.
pub const HOLDING_LIMIT: u64 = 9_000_000_000;

const CODES: RangeInclusive<u64> = 1..=CODE_LIMIT as u64;
const COMMITMENTS: RangeInclusive<u64> = 0..=COMMITMENT_LIMIT as u64;
const HOLDINGS: RangeInclusive<u64> = 0..=HOLDING_LIMIT;
const MARKS: RangeInclusive<u64> = 0..=1;

/// Who takes part, in the order of the image.
#[derive(Clone, Debug, Default, PartialEq, Eq)]
pub struct Roll {
    pub participants: Vec<Participant>,
    pub accounts: Vec<Account>,
}

#[derive(Clone, Copy, Debug, Default, PartialEq, Eq)]
pub struct Participant {
    pub code: u32,
    pub futures_commitment: u32,
    pub otc_commitment: u32,
    pub quarterly_margin: u32,
    pub adjusted_commitment: u32,
    /// Whether it was told to pay overnight money: 1 for yes, 0 for no.
    pub scope_mark: u8,
}

#[derive(Clone, Copy, Debug, Default, PartialEq, Eq)]
pub struct Account {
    pub code: u32,
    /// The code of the participant whose account it is.
    pub owner: u32,
    pub funds: u64,
    pub overnight: u64,
}

/// Which layer found a fault.
#[derive(Clone, Copy, Debug, PartialEq, Eq, PartialOrd, Ord)]
pub enum Layer {
    Image,
    Roll,
    Book,
}

impl Layer {
    pub fn name(self) -> &'static str {
        match self {
            Self::Image => "image",
            Self::Roll => "roll",
            Self::Book => "book",
        }
    }
}

/// Why an opening is refused. The place is a byte of the image for the image and the roll layer, and a record's number in its
/// table for the book layer; both are counted from 0.
#[derive(Clone, Copy, Debug, PartialEq, Eq)]
pub struct Fault {
    pub number: u32,
    pub place: usize,
    pub layer: Layer,
}

/// Reads an image into a roll, or tells its first fault.
pub fn read_image(image: &[u8]) -> Result<Roll, Fault> {
    look_over(image).map_err(|faults| faults[0])
}

/// All the faults of an image, in the order in which they are looked for, of each check the one with the lowest place. Where
/// the head has faults its records cannot be told and are not looked at.
pub fn faults(image: &[u8]) -> Vec<Fault> {
    look_over(image).err().unwrap_or_default()
}

/// The roll of an image without faults, or its faults, which are then one or more.
fn look_over(image: &[u8]) -> Result<Roll, Vec<Fault>> {
    let too_short = Fault {
        number: 13,
        place: 0,
        layer: Layer::Image,
    };
    let head = Head::read(image).ok_or(vec![too_short])?;
    none_of(head.faults(image.len()))?;
    // From here on the image is just as long as its counts make it.
    let roll = read_records(&image[HEAD_BYTES..], head.participants);
    none_of([field_faults(&roll), record_faults(&roll)].concat())?;
    Ok(roll)
}

fn none_of(faults: Vec<Fault>) -> Result<(), Vec<Fault>> {
    if faults.is_empty() {
        Ok(())
    } else {
        Err(faults)
    }
}

/// The check: 0 for an image that a book can be opened from, else the refusal's number and place in one number.
pub fn check(image: &[u8]) -> u64 {
    match read_image(image) {
        Ok(_) => 0,
        Err(fault) => 10_000 * u64::from(fault.number) + fault.place as u64,
    }
}

/// How many bytes an image with so many records has.
pub fn image_length(participants: usize, accounts: usize) -> usize {
    HEAD_BYTES + PARTICIPANT_BYTES * participants + ACCOUNT_BYTES * accounts
}

/// What the head of an image says, right or wrong.
struct Head {
    version: u64,
    stated_length: u64,
    participants: usize,
    accounts: usize,
}

impl Head {
    /// `None` where there are too few bytes for a head.
    fn read(image: &[u8]) -> Option<Self> {
        let head = image.get(..HEAD_BYTES)?;
        Some(Self {
            version: big_endian(&head[0..1]),
            stated_length: big_endian(&head[1..5]),
            participants: head[5].into(),
            accounts: head[6].into(),
        })
    }

    /// The faults of the image layer, in an image of so many bytes.
    fn faults(&self, given: usize) -> Vec<Fault> {
        let good_length = image_length(self.participants, self.accounts) as u64;
        let version = self.version != VERSION.into();
        let participants = self.participants == 0 || self.participants > PARTICIPANTS_LIMIT;
        let accounts = self.accounts > ACCOUNTS_LIMIT;
        let length = self.stated_length != given as u64 || self.stated_length != good_length;
        found(
            Layer::Image,
            [
                (12, version.then_some(0)),
                (14, participants.then_some(5)),
                (14, accounts.then_some(6)),
                (13, length.then_some(1)),
            ],
        )
    }
}

/// Reads the records that follow the head, whatever their fields say.
fn read_records(records: &[u8], participants: usize) -> Roll {
    let (participants, accounts) = records.split_at(PARTICIPANT_BYTES * participants);
    Roll {
        participants: participants
            .chunks_exact(PARTICIPANT_BYTES)
            .map(Participant::read)
            .collect(),
        accounts: accounts
            .chunks_exact(ACCOUNT_BYTES)
            .map(Account::read)
            .collect(),
    }
}

/// A field of a record: at which byte of the image it begins, what it holds and what it may hold.
struct Field {
    place: usize,
    value: u64,
    limits: RangeInclusive<u64>,
}

impl Field {
    fn new(place: usize, value: impl Into<u64>, limits: RangeInclusive<u64>) -> Self {
        Self {
            place,
            value: value.into(),
            limits,
        }
    }
}

impl Participant {
    fn read(record: &[u8]) -> Self {
        Self {
            code: big_endian(&record[0..4]) as u32,
            futures_commitment: big_endian(&record[4..8]) as u32,
            otc_commitment: big_endian(&record[8..12]) as u32,
            quarterly_margin: big_endian(&record[12..16]) as u32,
            adjusted_commitment: big_endian(&record[16..20]) as u32,
            scope_mark: record[20],
        }
    }

    /// The fields of a record that begins at byte `first`.
    fn fields(&self, first: usize) -> [Field; 6] {
        [
            Field::new(first, self.code, CODES),
            Field::new(first + 4, self.futures_commitment, COMMITMENTS),
            Field::new(first + 8, self.otc_commitment, COMMITMENTS),
            Field::new(first + 12, self.quarterly_margin, COMMITMENTS),
            Field::new(first + 16, self.adjusted_commitment, COMMITMENTS),
            Field::new(first + 20, self.scope_mark, MARKS),
        ]
    }
}

impl Account {
    pub fn new(code: u32, owner: u32, funds: u64, overnight: u64) -> Self {
        Self {
            code,
            owner,
            funds,
            overnight,
        }
    }

    fn read(record: &[u8]) -> Self {
        Self {
            code: big_endian(&record[0..4]) as u32,
            owner: big_endian(&record[4..8]) as u32,
            funds: big_endian(&record[8..16]),
            overnight: big_endian(&record[16..24]),
        }
    }

    /// The fields of a record that begins at byte `first`.
    fn fields(&self, first: usize) -> [Field; 4] {
        [
            Field::new(first, self.code, CODES),
            Field::new(first + 4, self.owner, CODES),
            Field::new(first + 8, self.funds, HOLDINGS),
            Field::new(first + 16, self.overnight, HOLDINGS),
        ]
    }
}

/// The faults of the roll layer: the fields outside their limits, in the order of the image.
fn field_faults(roll: &Roll) -> Vec<Fault> {
    let participants = (HEAD_BYTES..)
        .step_by(PARTICIPANT_BYTES)
        .zip(&roll.participants)
        .flat_map(|(first, participant)| participant.fields(first));
    let accounts = (image_length(roll.participants.len(), 0)..)
        .step_by(ACCOUNT_BYTES)
        .zip(&roll.accounts)
        .flat_map(|(first, account)| account.fields(first));
    let checks = participants.chain(accounts).map(|field| {
        let outside = !field.limits.contains(&field.value);
        (14, outside.then_some(field.place))
    });
    found(Layer::Roll, checks)
}

/// The faults of the book layer.
fn record_faults(roll: &Roll) -> Vec<Fault> {
    let Roll {
        participants,
        accounts,
    } = roll;
    let codes: BTreeSet<u32> = participants.iter().map(|one| one.code).collect();
    let stranger = accounts
        .iter()
        .position(|account| !codes.contains(&account.owner));
    let overfull = participants
        .iter()
        .position(|participant| roll.holding(participant.code) > HOLDING_LIMIT.into());
    found(
        Layer::Book,
        [
            (15, first_repeated(participants.iter().map(|one| one.code))),
            (15, first_repeated(accounts.iter().map(|one| one.code))),
            (16, stranger),
            (17, overfull),
        ],
    )
}

impl Roll {
    /// All the dollars in the accounts of one participant, both columns counted.
    pub fn holding(&self, owner: u32) -> u128 {
        self.accounts
            .iter()
            .filter(|account| account.owner == owner)
            .map(|account| u128::from(account.funds) + u128::from(account.overnight))
            .sum()
    }
}

/// The faults of a layer, from its checks in their order: the number of each, and the place where it found its fault.
fn found(layer: Layer, checks: impl IntoIterator<Item = (u32, Option<usize>)>) -> Vec<Fault> {
    let faults = checks.into_iter().filter_map(|(number, place)| {
        Some(Fault {
            number,
            place: place?,
            layer,
        })
    });
    faults.collect()
}

/// Where in a row of codes the first one stands that stood in it before.
fn first_repeated(mut codes: impl Iterator<Item = u32>) -> Option<usize> {
    let mut seen = BTreeSet::new();
    codes.position(|code| !seen.insert(code))
}

/// The number that at most eight bytes make, of which the first weighs most.
fn big_endian(bytes: &[u8]) -> u64 {
    bytes
        .iter()
        .fold(0, |number, &byte| (number << 8) | u64::from(byte))
}
