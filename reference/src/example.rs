//! An example of a roll: four participants, one of them out of scope, and six accounts, none of them the fourth's.

use crate::images::{Account, Participant, Roll};

pub fn roll() -> Roll {
    Roll {
        participants: vec![
            participant(101, [48_500_000, 21_250_000, 163_400_000, 71_900_000], 1),
            participant(102, [32_750_000, 40_000_000, 118_920_500, 69_315_000], 1),
            participant(103, [12_400_000, 0, 27_635_250, 12_400_000], 0),
            participant(104, [25_000_000, 17_600_000, 84_210_750, 45_080_000], 1),
        ],
        accounts: vec![
            Account::new(2001, 101, 64_300_000, 5_250_000),
            Account::new(2002, 101, 18_975_400, 0),
            Account::new(2003, 102, 52_810_000, 7_600_250),
            Account::new(2004, 103, 9_450_000, 0),
            Account::new(2005, 102, 30_125_775, 1_200_000),
            Account::new(2006, 101, 0, 2_480_000),
        ],
    }
}

/// A participant with its futures commitment, OTC commitment, quarterly margin and adjusted commitment.
fn participant(code: u32, dollars: [u32; 4], scope_mark: u8) -> Participant {
    let [
        futures_commitment,
        otc_commitment,
        quarterly_margin,
        adjusted_commitment,
    ] = dollars;
    Participant {
        code,
        futures_commitment,
        otc_commitment,
        quarterly_margin,
        adjusted_commitment,
        scope_mark,
    }
}

#[cfg(test)]
mod tests {
    use super::*;
    use crate::images::read_image;
    use crate::images::writing::image_of;

    #[test]
    fn a_book_opens_from_the_example() {
        let image = image_of(&roll());
        assert_eq!(image.len(), 7 + 4 * 21 + 6 * 24);
        assert_eq!(read_image(&image), Ok(roll()));
    }
}
