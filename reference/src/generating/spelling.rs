//! Spelling numbers, words and lines in the many ways in which they may be written, and in ways in which they may not.

use crate::random::Random;
use crate::splitting::Bearer;

use super::rows::Row;

/// The words of a `split` that can be read.
pub fn split_words(random: &mut Random, row: &Row) -> Vec<Vec<u8>> {
    let mut words = vec![b"split".to_vec(), number(random, row.sum)];
    words.extend(row.bearers.iter().map(|bearer| bearer_word(random, bearer)));
    words
}

fn bearer_word(random: &mut Random, bearer: &Bearer) -> Vec<u8> {
    let code = number(random, bearer.code.into());
    let weight = number(random, bearer.weight);
    [code.as_slice(), b":", &weight].concat()
}

/// A number that can be read: mostly plain, now and then with `+` or leading zeros.
pub fn number(random: &mut Random, number: u64) -> Vec<u8> {
    let plus = if random.percent(3) { "+" } else { "" };
    let zeros = match random.below(200) {
        0..5 => random.between(1, 4),
        5 => random.between(20, 40),
        _ => 0,
    };
    format!("{plus}{}{number}", "0".repeat(zeros as usize)).into_bytes()
}

/// How many bits a number has to fit.
#[derive(Clone, Copy)]
pub enum Width {
    Bits32,
    Bits64,
}

impl Width {
    /// The lowest number that does not fit.
    fn end(self) -> u128 {
        match self {
            Self::Bits32 => 1 << 32,
            Self::Bits64 => 1 << 64,
        }
    }
}

/// The words of a `split` of which one cannot be read.
pub fn unreadable_split_words(random: &mut Random, row: &Row) -> Vec<Vec<u8>> {
    let mut words = split_words(random, row);
    if row.bearers.is_empty() || random.percent(20) {
        words[1] = unreadable_number(random, row.sum, Width::Bits64);
        return words;
    }
    let place = match random.below(3) {
        0 => 0,
        1 => row.bearers.len() - 1,
        _ => random.index(row.bearers.len()),
    };
    words[place + 2] = unreadable_bearer(random, &row.bearers[place]);
    words
}

/// No decimal number, or one too large.
pub fn unreadable_number(random: &mut Random, good: u64, width: Width) -> Vec<u8> {
    let end = width.end();
    match random.below(10) {
        0 => {
            let sign = random.pick(&["-", "++", "+-", "-+", "--"]);
            format!("{sign}{good}").into_bytes()
        }
        1 => random
            .pick(&[&b"+"[..], b"-", b"-0", b"-1", b"+ 1", b"1+"])
            .to_vec(),
        2 => {
            let letter = random.pick(&["a", "k", "O", "l", "e3", "u32", "x"]);
            match random.below(2) {
                0 => format!("{good}{letter}").into_bytes(),
                _ => format!("{letter}{good}").into_bytes(),
            }
        }
        3 => {
            let words = [
                "0x10", "0b1", "1e3", "ten", "NaN", "inf", "1.0", "1,000", "1_000", "1'000", "$5",
                "5%", "1/2", "\"1\"",
            ];
            random.pick(&words).into()
        }
        // The lowest that does not fit, and what would be a good number if the bits above the width fell off.
        4 => end.to_string().into_bytes(),
        5 => {
            let beyond = end * u128::from(random.between(1, 3)) + u128::from(good);
            let plus = random.pick(&["", "+", "000", "+0"]);
            format!("{plus}{beyond}").into_bytes()
        }
        6 => {
            let digits = random
                .pick(&[11, 20, 21, 25, 25, 25, 60])
                .max(end.to_string().len() + 1);
            let mut word = vec![b'0' + random.between(1, 9) as u8];
            word.extend((1..digits).map(|_| b'0' + random.below(10) as u8));
            word
        }
        // Bytes that are no UTF-8, bytes that are no white space here, and digits of other scripts.
        7 => with_bytes(
            random,
            good,
            &[b"\xff", b"\xfe", b"\x80", b"\xc3", b"\xed\xa0\x80"],
        ),
        8 => with_bytes(
            random,
            good,
            &[
                b"\0",
                b"\x0b",
                b"\x1c",
                b"\x7f",
                b"\x85",
                b"\xc2\xa0",
                b"\xef\xbb\xbf",
                b"/",
                b";",
                b"*",
            ],
        ),
        _ => with_bytes(
            random,
            good,
            &["٣", "７", "²", "Ⅷ", "０"].map(str::as_bytes),
        ),
    }
}

/// A number with foreign bytes before, behind or inside it, or the foreign bytes alone.
fn with_bytes(random: &mut Random, good: u64, foreign: &[&[u8]]) -> Vec<u8> {
    let foreign = random.pick(foreign);
    let digits = good.to_string().into_bytes();
    let (front, back) = digits.split_at(random.index(digits.len() + 1));
    match random.below(5) {
        0 => foreign.to_vec(),
        _ => [front, foreign, back].concat(),
    }
}

/// A bearer's word without a good code or weight, or not cut by one colon.
fn unreadable_bearer(random: &mut Random, &Bearer { code, weight }: &Bearer) -> Vec<u8> {
    let whole_word = match random.below(30) {
        0..8 => {
            let code = unreadable_number(random, code.into(), Width::Bits32);
            return [code, format!(":{weight}").into_bytes()].concat();
        }
        8..16 => {
            let weight = unreadable_number(random, weight, Width::Bits64);
            return [format!("{code}:").into_bytes(), weight].concat();
        }
        16 => format!(":{weight}"),
        17 => format!("{code}:"),
        18 => ":".into(),
        19 => format!("{code}"),
        20 => format!(
            "{code}{}{weight}",
            random.pick(&[";", "=", ",", ".", "-", "+"])
        ),
        21 => format!("{code}:{weight}:{}", random.below(10)),
        22 => format!("{code}::{weight}"),
        23 => format!("{code}:{weight}:"),
        24 => format!(":{code}:{weight}"),
        25 => format!("{code}: {weight}"),
        26 => format!("{code} :{weight}"),
        // A comment that begins before the weight.
        27 => format!("{code}#:{weight}"),
        28 => format!("{code}:#{weight}"),
        _ => format!("{code}\u{ff1a}{weight}"),
    };
    whole_word.into_bytes()
}

/// A line that is no command for its words alone.
pub fn bad_command(random: &mut Random) -> Vec<Vec<u8>> {
    const LINES: [&[&[u8]]; 44] = [
        &[b"split"],
        &[b"split", b"#+5", b"1:1"],
        &[b"Split", b"5", b"1:1"],
        &[b"SPLIT", b"5", b"1:1"],
        &[b"splits", b"5", b"1:1"],
        &[b"spli", b"5", b"1:1"],
        &[b"sp#lit", b"5", b"1:1"],
        &[b"split:", b"5", b"1:1"],
        &[b"split\0", b"5", b"1:1"],
        &[b"split\x0b5", b"1:1"],
        &[b"split\xc2\xa05", b"1:1"],
        &[b"split\xff", b"5", b"1:1"],
        &[b"\xef\xbb\xbfsplit", b"5", b"1:1"],
        &[b"+split", b"5", b"1:1"],
        &[b"split5", b"1:1"],
        &[b"spilt", b"x", b"y"],
        &[b"explain"],
        &[b"explain", b"#on"],
        &[b"explain#", b"on"],
        &[b"explain", b"on", b"off"],
        &[b"explain", b"on", b"on"],
        &[b"explain", b"off", b"off"],
        &[b"explain", b"off", b"1:1", b"-1"],
        &[b"explain", b"ON"],
        &[b"explain", b"Off"],
        &[b"explain", b"o#n"],
        &[b"explain", b"onn"],
        &[b"explain", b"of"],
        &[b"explain", b"on\0"],
        &[b"explain", b"off\x0b"],
        &[b"explain", b"on\xff"],
        &[b"explain", b"yes"],
        &[b"explain", b"1"],
        &[b"explain", b"split", b"5", b"1:1"],
        &[b"Explain", b"on"],
        &[b"EXPLAIN", b"off"],
        &[b"explainon"],
        &[b"on"],
        &[b"off"],
        &[b"5", b"1:1"],
        &[b"1:1"],
        &[b"share", b"1", b"5"],
        &[b"\0"],
        &[b"\xff\xfe"],
    ];
    if random.percent(15) {
        let length = random.between(1, 12);
        let word = (0..length)
            .map(|_| random.pick(b"abcdexplainsplit:+-0\0\x0b\x80\xff"))
            .collect();
        return vec![word];
    }
    random
        .pick(&LINES)
        .iter()
        .map(|word| word.to_vec())
        .collect()
}

/// A line without words: nothing, white space, a comment.
pub fn silent_line(random: &mut Random) -> Vec<u8> {
    random
        .pick(&[
            &b""[..],
            b"",
            b" ",
            b"\t\t",
            b"\r",
            b" \t\r\x0c ",
            b"#",
            b"##",
            b"# a comment",
            b"\t # split 5 1:1",
            b"#split 5 1:1",
            b"# explain on",
            b"#explain off\r",
            b"\x0c# \xff\xfe\0",
        ])
        .to_vec()
}

/// Lays words out in a line: mostly with one space between them, now and then with other white space between and around them
/// and with a comment behind.
pub fn lay_out(random: &mut Random, words: &[Vec<u8>]) -> Vec<u8> {
    let odd = random.percent(15);
    let blank = |random: &mut Random| {
        if odd {
            random.pick(&[
                &b" "[..],
                b" ",
                b"  ",
                b"\t",
                b"\r",
                b"\x0c",
                b" \t",
                b"\r\r",
                b"\t\x0c \r",
            ])
        } else {
            b" "
        }
    };
    let mut line = Vec::new();
    if odd && random.percent(50) {
        line.extend(blank(random));
    }
    for (place, word) in words.iter().enumerate() {
        if place > 0 {
            line.extend(blank(random));
        }
        line.extend(word);
    }
    if odd && random.percent(50) {
        line.extend(blank(random));
    }
    if random.percent(5) {
        line.extend(random.pick(&[
            &b"#"[..],
            b" # a comment",
            b"#+5",
            b" #+9:9",
            b"\t##",
            b"# 7:x",
            b" #\xff\0",
            b"#:",
        ]));
    }
    if random.percent(5) {
        line.push(b'\r');
    }
    line
}
