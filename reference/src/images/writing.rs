//! Writing roll images.

use super::{Account, Participant, Roll, VERSION, image_length};

/// The image of a roll, with a head that fits its records. Fields are written as they are, also outside their limits.
pub fn image_of(roll: &Roll) -> Vec<u8> {
    let (participants, accounts) = (roll.participants.len(), roll.accounts.len());
    let mut image = vec![VERSION];
    image.extend((image_length(participants, accounts) as u32).to_be_bytes());
    image.extend([participants as u8, accounts as u8]);
    for participant in &roll.participants {
        append_participant(&mut image, participant);
    }
    for account in &roll.accounts {
        append_account(&mut image, account);
    }
    image
}

fn append_participant(image: &mut Vec<u8>, participant: &Participant) {
    let numbers = [
        participant.code,
        participant.futures_commitment,
        participant.otc_commitment,
        participant.quarterly_margin,
        participant.adjusted_commitment,
    ];
    image.extend(numbers.map(u32::to_be_bytes).as_flattened());
    image.push(participant.scope_mark);
}

fn append_account(image: &mut Vec<u8>, account: &Account) {
    image.extend(
        [account.code, account.owner]
            .map(u32::to_be_bytes)
            .as_flattened(),
    );
    image.extend(
        [account.funds, account.overnight]
            .map(u64::to_be_bytes)
            .as_flattened(),
    );
}

/// Writes a number over some bytes of an image, the byte that weighs most first; what does not fit so many bytes is lost.
pub fn put(image: &mut [u8], at: usize, bytes: usize, number: u64) {
    image[at..at + bytes].copy_from_slice(&number.to_be_bytes()[8 - bytes..]);
}
