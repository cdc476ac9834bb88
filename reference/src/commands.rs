//! Reading a line into a command.

use crate::books::Basis;
use crate::lines::words;
use crate::numbers::{read_bytes, read_u32, read_u64, read_up_to};
use crate::splitting::Bearer;

/// The most places of the journal that calls may be given.
pub const JOURNAL_LIMIT: u64 = 1_000_000;

/// A command, all its numbers read.
#[derive(Clone, Debug, PartialEq, Eq)]
pub enum Command {
    /// `explain on`, `explain off`
    Explain { on: bool },
    /// `split SUM CODE:WEIGHT ...`
    Split { sum: u64, bearers: Vec<Bearer> },
    /// `basis commitment`
    Basis(Basis),
    /// `journal N`
    Journal { places: u64 },
    /// `image HEX`
    Image { image: Vec<u8> },
    /// `roll PATH`, the path still being any bytes
    Roll { path: Vec<u8> },
    /// `funds`
    Funds,
}

/// Why a line with words is not carried out. These are the reader's own answers, given before anything is done, in the order
/// in which they are looked at.
#[derive(Clone, Copy, Debug, PartialEq, Eq)]
pub enum Unreadable {
    /// An unknown word in front, too few or too many words, or another word than a command knows.
    BadCommand,
    /// The command needs a book and there is none.
    NoBook,
    /// A word that has to be a number is none, or does not fit.
    BadNumber,
    /// The file that is named cannot be read.
    BadFile,
}

impl Unreadable {
    pub fn answer(self) -> &'static str {
        match self {
            Self::BadCommand => "bad command",
            Self::NoBook => "no book",
            Self::BadNumber => "bad number",
            Self::BadFile => "bad file",
        }
    }
}

impl Command {
    /// Reads a line, with or without a book being there; `None` for a line without words. The words are looked at before any
    /// number is read, so a bad command comes before a bad number. Files are not read here.
    pub fn read(line: &[u8], book_is_there: bool) -> Result<Option<Self>, Unreadable> {
        let words: Vec<&[u8]> = words(line).collect();
        let command = match words.as_slice() {
            [] => return Ok(None),
            [b"explain", b"on"] => Some(Self::Explain { on: true }),
            [b"explain", b"off"] => Some(Self::Explain { on: false }),
            [b"split", sum, bearers @ ..] => read_split(sum, bearers),
            [b"basis", b"commitment"] => Some(Self::Basis(Basis::Commitment)),
            [b"journal", places] => {
                read_up_to(JOURNAL_LIMIT, places).map(|places| Self::Journal { places })
            }
            [b"image", digits] => read_bytes(digits).map(|image| Self::Image { image }),
            [b"roll", path] => Some(Self::Roll {
                path: path.to_vec(),
            }),
            [b"funds"] if !book_is_there => return Err(Unreadable::NoBook),
            [b"funds"] => Some(Self::Funds),
            _ => return Err(Unreadable::BadCommand),
        };
        // What is missing by now is a number that could not be read.
        command.map(Some).ok_or(Unreadable::BadNumber)
    }
}

fn read_split(sum: &[u8], bearers: &[&[u8]]) -> Option<Command> {
    Some(Command::Split {
        sum: read_u64(sum)?,
        bearers: bearers
            .iter()
            .map(|word| read_bearer(word))
            .collect::<Option<_>>()?,
    })
}

/// `CODE:WEIGHT`, cut at the first `:`. A second `:` is part of the weight, which is then no number.
fn read_bearer(word: &[u8]) -> Option<Bearer> {
    let colon = word.iter().position(|&byte| byte == b':')?;
    Some(Bearer {
        code: read_u32(&word[..colon])?,
        weight: read_u64(&word[colon + 1..])?,
    })
}

#[cfg(test)]
mod tests {
    use super::*;

    fn read(line: &[u8]) -> Result<Option<Command>, Unreadable> {
        Command::read(line, true)
    }

    #[test]
    fn lines_without_words_are_no_commands() {
        for line in [&b""[..], b" \t\r\x0c", b"# split 1 1:1"] {
            assert_eq!(read(line), Ok(None));
        }
    }

    #[test]
    fn readable_commands() {
        let on = Command::Explain { on: true };
        assert_eq!(read(b" explain\ton # off\r"), Ok(Some(on)));
        let off = Command::Explain { on: false };
        assert_eq!(read(b"explain off#"), Ok(Some(off)));
        let no_bearers = Command::Split {
            sum: 5,
            bearers: vec![],
        };
        assert_eq!(read(b"split 5"), Ok(Some(no_bearers)));
        let widest = Command::Split {
            sum: u64::MAX,
            bearers: vec![
                Bearer {
                    code: u32::MAX,
                    weight: u64::MAX,
                },
                Bearer {
                    code: 0,
                    weight: 12,
                },
            ],
        };
        let line = b"split 18446744073709551615 4294967295:18446744073709551615 +0:00012#3";
        assert_eq!(read(line), Ok(Some(widest)));
    }

    #[test]
    fn commands_about_books() {
        for (line, command) in [
            (&b"basis commitment"[..], Command::Basis(Basis::Commitment)),
            (b"journal 0", Command::Journal { places: 0 }),
            (
                b"journal +0001000000",
                Command::Journal { places: 1_000_000 },
            ),
            (
                b"image 0aFf",
                Command::Image {
                    image: vec![10, 255],
                },
            ),
            (b"image 01#2", Command::Image { image: vec![1] }),
            (
                b"roll a/b:\xff\x0b#c",
                Command::Roll {
                    path: b"a/b:\xff\x0b".to_vec(),
                },
            ),
            (b"\tfunds # all", Command::Funds),
        ] {
            assert_eq!(read(line), Ok(Some(command)), "{line:?}");
        }
    }

    #[test]
    fn only_funds_needs_a_book() {
        assert_eq!(Command::read(b"funds", false), Err(Unreadable::NoBook));
        assert_eq!(
            Command::read(b"funds all", false),
            Err(Unreadable::BadCommand)
        );
        for line in [
            &b""[..],
            b"explain on",
            b"split 0",
            b"split x",
            b"basis commitment",
            b"basis",
            b"journal 7",
            b"journal x",
            b"image 01",
            b"image 1",
            b"roll x",
        ] {
            assert_eq!(Command::read(line, false), read(line), "{line:?}");
        }
    }

    #[test]
    fn bad_commands() {
        for line in [
            &b"splits 1 1:1"[..],
            b"Split 1 1:1",
            b"SPLIT 1 1:1",
            b"spl#it 1 1:1",
            b"split",
            b"split # 1 1:1",
            b"split\x0b1 1:1",
            b"split\0 1 1:1",
            b"\xffsplit 1 1:1",
            b"explain",
            b"explain on off",
            b"explain on on",
            b"explain off off off",
            b"explain ON",
            b"explain o#n",
            b"explain 1",
            b"Explain on",
            b"on",
            b"1",
            b"\0",
            b"\xff\xfe",
        ] {
            assert_eq!(read(line), Err(Unreadable::BadCommand), "{line:?}");
        }
    }

    #[test]
    fn bad_numbers() {
        for line in [
            &b"split x"[..],
            b"split -1",
            b"split 1:1",
            b"split 18446744073709551616 1:1",
            b"split 1 1",
            b"split 1 :",
            b"split 1 :1",
            b"split 1 1:",
            b"split 1 1::1",
            b"split 1 1:1:",
            b"split 1 1:1:1",
            b"split 1 1: 1",
            b"split 1 1:#+1",
            b"split 1 -1:1",
            b"split 1 1:-1",
            b"split 1 4294967296:1",
            b"split 1 1:18446744073709551616",
            b"split 1 1:1 2:1\xff",
            b"split 1 1:1 2:\0",
            b"split 1 1:1 on",
        ] {
            assert_eq!(read(line), Err(Unreadable::BadNumber), "{line:?}");
        }
    }

    #[test]
    fn bad_commands_about_books() {
        for line in [
            &b"basis"[..],
            b"basis Commitment",
            b"basis commitments",
            b"basis commitment commitment",
            b"basis #commitment",
            b"journal",
            b"journal 1 2",
            b"journal x y",
            b"image",
            b"image 01 02",
            b"image x y",
            b"images 01",
            b"roll",
            b"roll a b",
            b"Roll a",
            b"funds 1",
            b"funds\0",
            b"FUNDS",
        ] {
            assert_eq!(read(line), Err(Unreadable::BadCommand), "{line:?}");
        }
    }

    #[test]
    fn bad_numbers_about_books() {
        for line in [
            &b"journal 1000001"[..],
            b"journal 4294967296",
            b"journal 18446744073709551616",
            b"journal -1",
            b"journal x",
            b"image 0",
            b"image 012",
            b"image 0g",
            b"image 0x01",
            b"image +1",
            b"image 01\xff\xff",
            b"image 0#1",
        ] {
            assert_eq!(read(line), Err(Unreadable::BadNumber), "{line:?}");
        }
    }
}
