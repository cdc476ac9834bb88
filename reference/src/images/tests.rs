use super::writing::{image_of, put};
use super::*;

/// Two participants and two accounts, spelled out byte by byte: 7 + 2 x 21 + 2 x 24 = 97 bytes.
#[rustfmt::skip]
const BY_HAND: [u8; 97] = [
    // The head.
    1, 0, 0, 0, 97, 2, 2,
    // The participants 7 and 999,999.
    0, 0, 0, 7, 0, 0, 0, 1, 0, 0, 1, 0, 0, 1, 0, 0, 1, 0, 0, 0, 1,
    0, 15, 0x42, 0x3f, 0xee, 0x6b, 0x28, 0, 0, 0, 0, 0, 0, 0, 0, 2, 0, 0, 2, 3, 0,
    // Their accounts 7 and 9.
    0, 0, 0, 7, 0, 0, 0, 7, 0, 0, 0, 2, 0x18, 0x71, 0x1a, 0, 0, 0, 0, 0, 0, 0, 0, 0,
    0, 0, 0, 9, 0, 15, 0x42, 0x3f, 0, 0, 0, 0, 0, 0, 1, 1, 0, 0, 0, 1, 0, 0, 0, 2,
];

/// The bytes at which the fields of these records begin.
const FIELDS_BY_HAND: [usize; 20] = [
    7, 11, 15, 19, 23, 27, 28, 32, 36, 40, 44, 48, 49, 53, 57, 65, 73, 77, 81, 89,
];

fn roll_by_hand() -> Roll {
    Roll {
        participants: vec![
            Participant {
                code: 7,
                futures_commitment: 1,
                otc_commitment: 256,
                quarterly_margin: 65_536,
                adjusted_commitment: 16_777_216,
                scope_mark: 1,
            },
            Participant {
                code: 999_999,
                futures_commitment: 4_000_000_000,
                otc_commitment: 0,
                quarterly_margin: 2,
                adjusted_commitment: 515,
                scope_mark: 0,
            },
        ],
        accounts: vec![
            Account::new(7, 7, 9_000_000_000, 0),
            Account::new(9, 999_999, 257, 4_294_967_298),
        ],
    }
}

/// Participants with the codes 1, 2, .. and these accounts.
fn roll(participants: u32, accounts: &[Account]) -> Roll {
    Roll {
        participants: (1..=participants)
            .map(|code| Participant {
                code,
                ..Participant::default()
            })
            .collect(),
        accounts: accounts.to_vec(),
    }
}

/// A roll with so many participants and so many empty accounts, owned in turn.
fn roll_of(participants: u32, accounts: u32) -> Roll {
    let accounts: Vec<Account> = (0..accounts)
        .map(|place| Account::new(place + 1, place % participants + 1, 0, 0))
        .collect();
    roll(participants, &accounts)
}

/// Number, place and layer of an image's first fault.
fn fault(image: &[u8]) -> Option<(u32, usize, Layer)> {
    let fault = read_image(image).err()?;
    Some((fault.number, fault.place, fault.layer))
}

fn fault_of(roll: &Roll) -> Option<(u32, usize, Layer)> {
    fault(&image_of(roll))
}

/// The image spelled out above with a number written over some of its bytes.
fn changed(at: usize, bytes: usize, number: u64) -> Vec<u8> {
    let mut image = BY_HAND.to_vec();
    put(&mut image, at, bytes, number);
    image
}

#[test]
fn an_image_spelled_out_by_hand() {
    assert_eq!(read_image(&BY_HAND), Ok(roll_by_hand()));
    assert_eq!(image_of(&roll_by_hand()), BY_HAND);
}

#[test]
fn numbers_of_records() {
    for (participants, accounts) in [(1, 0), (64, 0), (1, 128), (64, 128)] {
        let roll = roll_of(participants, accounts);
        assert_eq!(read_image(&image_of(&roll)), Ok(roll));
    }
    assert_eq!(fault_of(&roll(0, &[])), Some((14, 5, Layer::Image)));
    assert_eq!(fault_of(&roll_of(65, 0)), Some((14, 5, Layer::Image)));
    assert_eq!(fault_of(&roll_of(64, 129)), Some((14, 6, Layer::Image)));
    assert_eq!(fault_of(&roll_of(65, 129)), Some((14, 5, Layer::Image)));
}

#[test]
fn cut_off_and_lengthened() {
    for given in 0..BY_HAND.len() {
        let expected = if given < 7 { (13, 0) } else { (13, 1) };
        assert_eq!(
            fault(&BY_HAND[..given]),
            Some((expected.0, expected.1, Layer::Image)),
            "{given} bytes"
        );
    }
    let mut longer = BY_HAND.to_vec();
    for _ in 0..50 {
        longer.push(0);
        assert_eq!(fault(&longer), Some((13, 1, Layer::Image)));
    }
}

/// The length has to be right three times: as stated, as given and by the counts.
#[test]
fn lengths_that_agree_with_only_one_other() {
    for stated in [
        0,
        96,
        98,
        97 << 8,
        97 << 16,
        97 << 24,
        97 | 1 << 24,
        0xffff_ffff,
    ] {
        assert_eq!(fault(&changed(1, 4, stated)), Some((13, 1, Layer::Image)));
    }
    for given in [76, 96, 98, 118, 121] {
        let mut as_given = changed(1, 4, given);
        as_given.resize(given as usize, 0);
        assert_eq!(fault(&as_given), Some((13, 1, Layer::Image)));
    }
    for (participants, accounts) in [(1, 2), (3, 2), (2, 1), (2, 3), (1, 3), (3, 1)] {
        let mut image = changed(5, 2, participants << 8 | accounts);
        assert_eq!(fault(&image), Some((13, 1, Layer::Image)));
        put(&mut image, 1, 4, 7 + 21 * participants + 24 * accounts);
        assert_eq!(fault(&image), Some((13, 1, Layer::Image)));
    }
}

#[test]
fn versions() {
    for version in 0..=255 {
        let expected = (version != 1).then_some((12, 0, Layer::Image));
        assert_eq!(fault(&changed(0, 1, version)), expected);
    }
    // Too few bytes come before the version.
    assert_eq!(fault(&[2; 6]), Some((13, 0, Layer::Image)));
    assert_eq!(fault(&[2; 7]), Some((12, 0, Layer::Image)));
}

/// Every combination of faults of the head: the first in their order is the answer.
#[test]
fn the_faults_of_the_head_are_looked_at_in_their_order() {
    for faults in 0u32..16 {
        let holds = |fault: u32| faults & (1 << fault) != 0;
        let mut image = BY_HAND.to_vec();
        let mut expected = None;
        if holds(3) {
            put(&mut image, 1, 4, 98);
            expected = Some((13, 1, Layer::Image));
        }
        if holds(2) {
            image[6] = 129;
            expected = Some((14, 6, Layer::Image));
        }
        if holds(1) {
            image[5] = 65;
            expected = Some((14, 5, Layer::Image));
        }
        if holds(0) {
            image[0] = 0;
            expected = Some((12, 0, Layer::Image));
        }
        assert_eq!(fault(&image), expected, "faults {faults:04b}");
    }
}

/// For each field of a participant: at which byte of the record it begins, its bytes, the lowest and the highest it may hold.
const PARTICIPANT_LIMITS: [(usize, usize, u64, u64); 6] = [
    (0, 4, 1, 999_999),
    (4, 4, 0, 4_000_000_000),
    (8, 4, 0, 4_000_000_000),
    (12, 4, 0, 4_000_000_000),
    (16, 4, 0, 4_000_000_000),
    (20, 1, 0, 1),
];

/// The same for an account.
const ACCOUNT_LIMITS: [(usize, usize, u64, u64); 4] = [
    (0, 4, 1, 999_999),
    (4, 4, 1, 999_999),
    (8, 8, 0, 9_000_000_000),
    (16, 8, 0, 9_000_000_000),
];

/// Tests one field of the record that begins at byte `first`: within its limits the roll layer finds no fault, outside it
/// does, at the first byte of the field.
fn test_limits(image: &[u8], first: usize, limits: (usize, usize, u64, u64)) {
    let (at, bytes, lowest, highest) = limits;
    let place = first + at;
    let outcome = |number: u64| {
        let mut image = image.to_vec();
        put(&mut image, place, bytes, number);
        fault(&image)
    };
    for inside in [lowest, lowest + 1, highest - 1, highest] {
        let layer = outcome(inside).map_or(Layer::Book, |(_, _, layer)| layer);
        assert_eq!(layer, Layer::Book, "{inside} at byte {place}");
    }
    let widest = u64::MAX >> (64 - 8 * bytes);
    let below = lowest.checked_sub(1);
    for outside in [highest + 1, 1 << (8 * bytes - 1), widest]
        .into_iter()
        .chain(below)
    {
        if outside > highest || outside < lowest {
            assert_eq!(
                outcome(outside),
                Some((14, place, Layer::Roll)),
                "{outside}"
            );
        }
    }
}

#[test]
fn each_field_of_each_record_has_its_limits() {
    let image = image_of(&roll_of(64, 128));
    for limits in PARTICIPANT_LIMITS {
        for first in [7, 28, 7 + 21 * 63] {
            test_limits(&image, first, limits);
        }
    }
    for limits in ACCOUNT_LIMITS {
        for first in [1351, 1375, 1351 + 24 * 127] {
            test_limits(&image, first, limits);
        }
    }
}

/// Of two fields outside their limits the one that stands first in the image is told, in whichever record they are.
#[test]
fn the_first_field_outside_its_limits_is_told() {
    for (place, &first) in FIELDS_BY_HAND.iter().enumerate() {
        for &second in &FIELDS_BY_HAND[place..] {
            let mut image = BY_HAND.to_vec();
            image[first] = 0xff;
            image[second] = 0xff;
            assert_eq!(fault(&image), Some((14, first, Layer::Roll)));
        }
    }
}

#[test]
fn a_code_twice_is_placed_at_the_later_record() {
    for (changes, place) in [
        (&[(1, 1)][..], 1),
        (&[(5, 1)], 5),
        (&[(5, 5)], 5),
        (&[(3, 2)], 3),
        (&[(2, 1), (4, 1)], 2),
        (&[(5, 1), (3, 2)], 3),
        (&[(0, 6)], 5),
    ] {
        let mut participants = roll_of(6, 0);
        let mut accounts = roll_of(6, 6);
        for &(at, code) in changes {
            participants.participants[at].code = code;
            accounts.accounts[at].code = code;
        }
        let expected = Some((15, place, Layer::Book));
        assert_eq!(fault_of(&participants), expected);
        assert_eq!(fault_of(&accounts), expected);
    }
}

#[test]
fn participants_and_accounts_may_share_codes() {
    assert_eq!(fault_of(&roll_of(3, 3)), None);
}

#[test]
fn an_unknown_owner_is_placed_at_the_lowest_such_account() {
    let with_owners = |owners: &[u32]| {
        let accounts: Vec<Account> = (10..)
            .zip(owners)
            .map(|(code, &owner)| Account::new(code, owner, 1, 1))
            .collect();
        fault_of(&roll(2, &accounts))
    };
    assert_eq!(with_owners(&[1, 2, 2, 1]), None);
    assert_eq!(with_owners(&[3, 2, 1]), Some((16, 0, Layer::Book)));
    assert_eq!(with_owners(&[1, 2, 999_999]), Some((16, 2, Layer::Book)));
    assert_eq!(with_owners(&[1, 3, 4]), Some((16, 1, Layer::Book)));
    // An account's own code, and another's.
    assert_eq!(with_owners(&[1, 11]), Some((16, 1, Layer::Book)));
    assert_eq!(with_owners(&[1, 10]), Some((16, 1, Layer::Book)));
    // No participant has the code 0 nor may an account have such an owner.
    assert_eq!(with_owners(&[0]), Some((14, 53, Layer::Roll)));
}

#[test]
fn accounts_may_hold_nine_thousand_million_together() {
    let full = [
        Account::new(1, 2, 4_000_000_000, 1_000_000_000),
        Account::new(2, 1, 9_000_000_000, 0),
        Account::new(3, 2, 0, 3_999_999_999),
        Account::new(4, 3, 0, 9_000_000_000),
        Account::new(5, 2, 1, 0),
    ];
    assert_eq!(fault_of(&roll(4, &full)), None);
    for (at, place) in [(0, 1), (1, 0), (2, 1), (3, 2), (4, 1)] {
        let mut more = full;
        more[at].funds += u64::from(more[at].funds < 9_000_000_000);
        more[at].overnight += u64::from(more[at].funds == 9_000_000_000);
        assert_eq!(fault_of(&roll(4, &more)), Some((17, place, Layer::Book)));
    }
    // The place is that of a participant, and the lowest one, not that of the first account.
    let mut more = full;
    more[0].funds += 1;
    more[1].overnight += 1;
    assert_eq!(fault_of(&roll(4, &more)), Some((17, 0, Layer::Book)));
    let fullest: Vec<Account> = (1..=128)
        .map(|code| Account::new(code, 64, 9_000_000_000, 9_000_000_000))
        .collect();
    assert_eq!(fault_of(&roll(64, &fullest)), Some((17, 63, Layer::Book)));
}

/// Every combination of one fault of each kind: the first in the order of layers and checks is the answer.
#[test]
fn layers_and_checks_are_looked_at_in_their_order() {
    for faults in 0u32..128 {
        let holds = |fault: u32| faults & (1 << fault) != 0;
        let mut roll = roll_of(4, 8);
        let mut expected = None;
        if holds(6) {
            roll.accounts[0].overnight = 9_000_000_000;
            roll.accounts[4].overnight = 1;
            expected = Some((17, 0, Layer::Book));
        }
        if holds(5) {
            roll.accounts[1].owner = 5;
            expected = Some((16, 1, Layer::Book));
        }
        if holds(4) {
            roll.accounts[2].code = 1;
            expected = Some((15, 2, Layer::Book));
        }
        if holds(3) {
            roll.participants[3].code = 1;
            expected = Some((15, 3, Layer::Book));
        }
        if holds(2) {
            roll.accounts[0].funds = 9_000_000_001;
            expected = Some((14, 7 + 21 * 4 + 8, Layer::Roll));
        }
        if holds(1) {
            roll.participants[3].scope_mark = 2;
            expected = Some((14, 7 + 21 * 3 + 20, Layer::Roll));
        }
        let mut image = image_of(&roll);
        if holds(0) {
            image.push(0);
            expected = Some((13, 1, Layer::Image));
        }
        assert_eq!(fault(&image), expected, "faults {faults:07b}");
    }
}

#[test]
fn the_check_is_number_and_place_in_one() {
    assert_eq!(check(&BY_HAND), 0);
    assert_eq!(check(&[]), 130_000);
    assert_eq!(check(&[1; 6]), 130_000);
    assert_eq!(check(&BY_HAND[..96]), 130_001);
    assert_eq!(check(&changed(0, 1, 2)), 120_000);
    assert_eq!(check(&changed(5, 1, 0)), 140_005);
    assert_eq!(check(&changed(6, 1, 129)), 140_006);
    assert_eq!(check(&changed(7, 4, 0)), 140_007);
    assert_eq!(check(&changed(28, 4, 7)), 150_001);
    assert_eq!(check(&changed(53, 4, 8)), 160_000);
    assert_eq!(check(&changed(65, 8, 1)), 170_000);
    let mut largest = image_of(&roll_of(64, 128));
    assert_eq!(check(&largest), 0);
    // The last field of the largest image begins at byte 4,415.
    put(&mut largest, 4423 - 8, 8, u64::MAX);
    assert_eq!(check(&largest), 144_415);
}

/// No bytes at all make the reader stop, and where it finds a fault its place is one of the image or of a table.
#[test]
fn any_change_of_one_byte_is_answered() {
    for at in 0..BY_HAND.len() {
        for byte in 0..=255 {
            let Some((number, place, layer)) = fault(&changed(at, 1, byte)) else {
                continue;
            };
            let end = match layer {
                Layer::Image => HEAD_BYTES,
                Layer::Roll => BY_HAND.len(),
                Layer::Book => 2,
            };
            assert!((12..=17).contains(&number) && place < end);
            assert_eq!(layer == Layer::Image, at < HEAD_BYTES);
        }
    }
}
