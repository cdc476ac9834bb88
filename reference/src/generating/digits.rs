//! Spelling images in hexadecimal digits, and the other commands about books, rightly and wrongly.

use crate::random::Random;

use super::spelling::{Width, number, unreadable_number};

/// The words of a command.
pub type Words = Vec<Vec<u8>>;

/// The words of a command that opens a book from these bytes.
pub fn image_words(random: &mut Random, image: &[u8]) -> Words {
    vec![b"image".to_vec(), digits(random, image)]
}

/// The same with digits that cannot be read.
pub fn unreadable_image_words(random: &mut Random, image: &[u8]) -> Words {
    let good = digits(random, image);
    vec![b"image".to_vec(), unreadable_digits(random, good)]
}

/// Two digits a byte: all small, all large, or of either case.
fn digits(random: &mut Random, bytes: &[u8]) -> Vec<u8> {
    let large_letters = random.pick(&[0, 0, 100, 50]);
    let pairs: String = bytes.iter().map(|byte| format!("{byte:02x}")).collect();
    let mut digits = pairs.into_bytes();
    for digit in &mut digits {
        if random.percent(large_letters) {
            digit.make_ascii_uppercase();
        }
    }
    digits
}

/// Digits, some bytes of which are none, or which are odd in number.
fn unreadable_digits(random: &mut Random, mut digits: Vec<u8>) -> Vec<u8> {
    let place = random.index(digits.len());
    match random.below(8) {
        0 => digits.truncate(1),
        1 => drop(digits.pop()),
        2 => drop(digits.remove(place)),
        3 => digits.insert(place, random.pick(b"0123456789abcdefABCDEF")),
        // The neighbours of the digits among all bytes, and others that are none.
        4 | 5 => digits[place] = random.pick(b"/:@G`g+-_.xX\0\x0b\x7f\x80\xff"),
        6 => drop(digits.splice(0..0, *b"0x")),
        _ => {
            let two = random.pick(&[b"+1", b"-1", b"1h", b"0x", b"\xc3\xa9", b"\xc2\xb2", b"zz"]);
            let pair = place / 2 * 2;
            digits[pair..pair + 2].copy_from_slice(two);
        }
    }
    digits
}

/// `journal` with a number at or past its limit, or with what is no number.
pub fn journal_words(random: &mut Random) -> Words {
    let places = match random.below(10) {
        0..3 => {
            let within = random.pick(&[0, 1, 4096, 999_999, 1_000_000]);
            number(random, within)
        }
        3..6 => {
            let beyond = random.pick(&[1_000_001, 1 << 20, 1 << 32, (1 << 32) + 5, u64::MAX]);
            number(random, beyond)
        }
        6 => {
            let any = random.between(0, 1_000_000);
            number(random, any)
        }
        7 => unreadable_number(random, 5, Width::Bits64),
        _ => unreadable_number(random, 5, Width::Bits32),
    };
    vec![b"journal".to_vec(), places]
}

/// `roll` with a path at which there is no file, or one that is empty.
pub fn roll_words(random: &mut Random) -> Words {
    let path = match random.below(10) {
        0..4 => random.pick(&[
            &b"no-such-file"[..],
            b"no-such-folder/roll.img",
            b"/no/such/file",
            b"./no-such-file",
            b"no:such:file",
            b"01",
        ]),
        // Folders.
        4 | 5 => random.pick(&[&b"."[..], b"..", b"/", b"./"]),
        // No path at all: no text, or with a byte that no path has.
        6 | 7 => random.pick(&[
            &b"\xff"[..],
            b"no-such-file\xff",
            b"\xc3\xa9\xc3",
            b"\0",
            b"no-such\0file",
            b".\0",
            b"/dev/null\0",
        ]),
        8 => &[b'x'; 300],
        _ => b"/dev/null",
    };
    vec![b"roll".to_vec(), path.to_vec()]
}

/// Commands about books that are none for their words alone.
const BAD_COMMANDS: [&[&[u8]]; 42] = [
    &[b"image"],
    &[b"image", b"#ff00"],
    &[b"image", b"01", b"00"],
    &[b"image", b"0", b"x"],
    &[b"image", b"zz", b"zz"],
    &[b"Image", b"01"],
    &[b"IMAGE", b"01"],
    &[b"images", b"01"],
    &[b"image01"],
    &[b"image:", b"01"],
    &[b"image\x0b01"],
    &[b"image\xff", b"01"],
    &[b"roll"],
    &[b"roll", b"#no-such-file"],
    &[b"roll", b"no-such-file", b"no-such-file"],
    &[b"roll", b"no", b"such", b"file"],
    &[b"Roll", b"no-such-file"],
    &[b"rolls", b"no-such-file"],
    &[b"roll\0", b"no-such-file"],
    &[b"funds", b"extra"],
    &[b"funds", b"1"],
    &[b"funds", b"funds"],
    &[b"funds", b"\0"],
    &[b"Funds"],
    &[b"FUNDS"],
    &[b"fund"],
    &[b"fundss"],
    &[b"funds:"],
    &[b"basis"],
    &[b"basis", b"Commitment"],
    &[b"basis", b"commitments"],
    &[b"basis", b"commit#ment"],
    &[b"basis", b"commitment", b"commitment"],
    &[b"basis", b"commitment\xff"],
    &[b"basis", b"1"],
    &[b"Basis", b"commitment"],
    &[b"commitment"],
    &[b"journal"],
    &[b"journal", b"1", b"2"],
    &[b"journal", b"x", b"y"],
    &[b"journal", b"#x"],
    &[b"Journal", b"5"],
];

pub fn bad_command(random: &mut Random) -> Words {
    let line = random.pick(&BAD_COMMANDS);
    line.iter().map(|word| word.to_vec()).collect()
}
