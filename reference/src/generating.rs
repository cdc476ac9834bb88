//! Writing command scripts by chance, always the same for the same seed, to compare programs on. The scripts made here are
//! about splits; those about images are made in [`openings`].

mod damages;
mod digits;
pub mod openings;
pub mod program;
mod rolls;
pub mod rows;
mod spelling;

use std::io::{self, BufWriter, Write};

use crate::random::Random;

/// Writes a script of this many lines about splits.
pub fn write_script(seed: u64, count: u64, output: impl Write) -> io::Result<()> {
    let mut script = Script::new(seed);
    write_lines(seed, count, output, || script.line())
}

/// Writes this many lines. With every fourth seed the last line lacks its byte 10.
fn write_lines(
    seed: u64,
    count: u64,
    output: impl Write,
    mut next_line: impl FnMut() -> Vec<u8>,
) -> io::Result<()> {
    let mut output = BufWriter::new(output);
    for written in 1..=count {
        output.write_all(&next_line())?;
        if written < count || seed % 4 != 3 {
            output.write_all(b"\n")?;
        }
    }
    output.flush()
}

/// An endless script about splits.
pub struct Script {
    random: Random,
    /// Whether the script has switched explain on.
    explaining: bool,
}

impl Script {
    pub fn new(seed: u64) -> Self {
        Self {
            random: Random::new(seed),
            explaining: false,
        }
    }

    /// The next line, without the byte 10 that ends it: about seven in ten are splits that are accepted.
    pub fn line(&mut self) -> Vec<u8> {
        let random = &mut self.random;
        // Explain is switched on seldom and off again soon, so that reasons are asked for about one split in four.
        let switch = if self.explaining { 60 } else { 20 };
        let words = match random.below(1000) {
            draw if draw < switch => {
                self.explaining = !self.explaining;
                explain_words(self.explaining)
            }
            // Switching to what it is already changes nothing.
            990.. => explain_words(self.explaining),
            950..990 => return spelling::silent_line(random),
            910..950 => spelling::bad_command(random),
            845..910 => {
                let row = if random.percent(20) {
                    rows::refused(random)
                } else {
                    let length = rows::length(random);
                    rows::accepted(random, length)
                };
                spelling::unreadable_split_words(random, &row)
            }
            745..845 => {
                let row = rows::refused(random);
                spelling::split_words(random, &row)
            }
            _ => {
                let length = rows::length(random);
                let row = rows::accepted(random, length);
                spelling::split_words(random, &row)
            }
        };
        spelling::lay_out(random, &words)
    }
}

fn explain_words(on: bool) -> Vec<Vec<u8>> {
    vec![
        b"explain".to_vec(),
        if on { b"on".to_vec() } else { b"off".to_vec() },
    ]
}

/// Tests that a script, given by its seed and its number of lines, is settled by them, and that more lines leave the others as
/// they were.
#[cfg(test)]
fn seed_decides(script: impl Fn(u64, u64) -> Vec<u8>) {
    assert_eq!(script(5, 300), script(5, 300));
    assert_ne!(script(5, 300), script(6, 300));
    assert!(script(5, 300).starts_with(&script(5, 299)));
    assert!(script(5, 0).is_empty());
}

#[cfg(test)]
mod tests {
    use std::collections::BTreeMap;

    use super::*;
    use crate::answers::answered;
    use crate::commands::{Command, Unreadable};
    use crate::splitting::{Bearer, Refusal, SUM_LIMIT, Share, WEIGHT_LIMIT, split};

    fn script(seed: u64, count: u64) -> Vec<u8> {
        let mut script = Vec::new();
        write_script(seed, count, &mut script).expect("memory can be written");
        script
    }

    #[test]
    fn the_same_seed_writes_the_same_script() {
        seed_decides(script);
    }

    #[test]
    fn as_many_lines_as_asked_for() {
        for seed in 0..8 {
            let ends = script(seed, 100)
                .iter()
                .filter(|&&byte| byte == b'\n')
                .count();
            assert_eq!(ends, if seed % 4 == 3 { 99 } else { 100 });
        }
    }

    #[test]
    fn a_script_is_short_and_so_are_its_answers() {
        for seed in 1..=5 {
            let script = script(seed, 5000);
            let answers = answered(&script);
            assert!(script.len() < 700_000, "{} bytes of script", script.len());
            assert!(
                answers.len() < 1_500_000,
                "{} bytes of answers",
                answers.len()
            );
        }
    }

    /// The cases that a line makes, by name.
    fn cases(command: &Result<Option<Command>, Unreadable>, explaining: bool) -> Vec<&'static str> {
        match command {
            Ok(None) => vec!["silent"],
            Err(unreadable) => vec![unreadable.answer()],
            Ok(Some(Command::Explain { on })) => match (explaining, on) {
                (false, true) => vec!["explain switched on"],
                (true, false) => vec!["explain switched off"],
                _ => vec!["explain left as it was"],
            },
            Ok(Some(Command::Split { sum, bearers })) => split_cases(*sum, bearers, explaining),
            // These scripts have no commands about books.
            Ok(Some(_)) => vec![],
        }
    }

    fn split_cases(sum: u64, bearers: &[Bearer], explaining: bool) -> Vec<&'static str> {
        let length = bearers.len();
        let any_weight = |wanted: u64| bearers.iter().any(|bearer| bearer.weight == wanted);
        let no_weight = bearers.iter().all(|bearer| bearer.weight == 0);
        let mut codes: Vec<u32> = bearers.iter().map(|bearer| bearer.code).collect();
        let ascending = codes.is_sorted();
        codes.sort();
        codes.dedup();
        let twice = codes.len() < length;

        let mut cases = vec![
            ("sum just above its limit", sum == SUM_LIMIT + 1),
            ("weight just above its limit", any_weight(WEIGHT_LIMIT + 1)),
            ("129 bearers", length == 129),
            ("more than 129 bearers", length > 129),
        ];
        cases.extend(match split(sum, bearers) {
            Err(Refusal::Limit) => vec![
                ("refused 1", true),
                ("refused 1 before 15", twice),
                ("refused 1 before 6", no_weight && sum > 0),
                ("refused 1 before 15 and 6", twice && no_weight && sum > 0),
            ],
            Err(Refusal::CodeTwice) => vec![
                ("refused 15", true),
                ("refused 15 before 6", no_weight && sum > 0),
                ("refused 15 at a sum of 0", sum == 0),
                ("refused 15 in a full row", length == 128),
            ],
            Err(Refusal::NoWeight) => vec![
                ("refused 6", true),
                ("refused 6 without bearers", length == 0),
            ],
            Ok(split) => {
                // The last to get an odd dollar and the first to get none.
                let mut ranked: Vec<&Share> = split.shares.iter().collect();
                ranked.sort_by_key(|share| share.rank);
                let odd_dollars = split.odd_dollars as usize;
                let edge =
                    (odd_dollars > 0).then(|| (ranked[odd_dollars - 1], ranked[odd_dollars]));
                let at_edge = |holds: fn(&Share, &Share) -> bool| {
                    edge.is_some_and(|(last, first)| holds(last, first))
                };
                vec![
                    ("accepted", true),
                    ("explained, few", explaining && (1..=12).contains(&length)),
                    ("explained, many", explaining && length > 100),
                    ("0 bearers", length == 0),
                    ("1 bearer", length == 1),
                    ("2 bearers", length == 2),
                    ("127 bearers", length == 127),
                    ("128 bearers", length == 128),
                    ("no weight, sum 0", no_weight && length > 0),
                    ("sum 0", sum == 0),
                    ("sum 1", sum == 1),
                    (
                        "sum near its limit",
                        (SUM_LIMIT - 5..SUM_LIMIT).contains(&sum),
                    ),
                    ("sum at its limit", sum == SUM_LIMIT),
                    ("sum above all the weights", u128::from(sum) > split.total),
                    ("sum below all the weights", u128::from(sum) < split.total),
                    ("weight 0 among others", any_weight(0) && !no_weight),
                    ("weight at its limit", any_weight(WEIGHT_LIMIT)),
                    ("code 0", codes.first() == Some(&0)),
                    ("code 4294967295", codes.last() == Some(&u32::MAX)),
                    ("codes out of order", !ascending),
                    ("odd dollars", odd_dollars > 0),
                    (
                        "the code decides",
                        at_edge(|last, first| last.remainder == first.remainder),
                    ),
                    (
                        "the code decides between different weights",
                        at_edge(|last, first| {
                            last.remainder == first.remainder
                                && last.bearer.weight != first.bearer.weight
                        }),
                    ),
                    (
                        "a difference of one in millions decides",
                        at_edge(|last, first| {
                            last.remainder == first.remainder + 1 && first.remainder > 1_000_000
                        }),
                    ),
                ]
            }
        });
        cases
            .into_iter()
            .filter_map(|(case, holds)| holds.then_some(case))
            .collect()
    }

    /// How often each case is to be found at least in a script of 5000 lines.
    const AT_LEAST: [(&str, usize); 44] = [
        ("silent", 100),
        ("bad command", 100),
        ("bad number", 200),
        ("explain switched on", 20),
        ("explain switched off", 20),
        ("explain left as it was", 10),
        ("sum just above its limit", 20),
        ("weight just above its limit", 20),
        ("129 bearers", 5),
        ("more than 129 bearers", 5),
        ("refused 1", 100),
        ("refused 1 before 15", 10),
        ("refused 1 before 6", 10),
        ("refused 1 before 15 and 6", 1),
        ("refused 15", 50),
        ("refused 15 before 6", 5),
        ("refused 15 at a sum of 0", 1),
        ("refused 15 in a full row", 1),
        ("refused 6", 40),
        ("refused 6 without bearers", 1),
        ("accepted", 3250),
        ("explained, few", 400),
        ("explained, many", 3),
        ("0 bearers", 10),
        ("1 bearer", 100),
        ("2 bearers", 200),
        ("127 bearers", 3),
        ("128 bearers", 5),
        ("no weight, sum 0", 50),
        ("sum 0", 100),
        ("sum 1", 100),
        ("sum near its limit", 50),
        ("sum at its limit", 50),
        ("sum above all the weights", 500),
        ("sum below all the weights", 500),
        ("weight 0 among others", 500),
        ("weight at its limit", 100),
        ("code 0", 100),
        ("code 4294967295", 100),
        ("codes out of order", 1000),
        ("odd dollars", 1000),
        ("the code decides", 500),
        ("the code decides between different weights", 50),
        ("a difference of one in millions decides", 10),
    ];

    #[test]
    fn every_case_comes_up() {
        for seed in 1..=5 {
            let mut found: BTreeMap<&str, usize> = BTreeMap::new();
            let mut explaining = false;
            let mut script = Script::new(seed);
            for _ in 0..5000 {
                let line = script.line();
                assert!(!line.contains(&b'\n'));
                let command = Command::read(&line, false);
                for case in cases(&command, explaining) {
                    *found.entry(case).or_default() += 1;
                }
                if let Ok(Some(Command::Explain { on })) = command {
                    explaining = on;
                }
            }
            for (case, least) in AT_LEAST {
                let times = found.get(case).copied().unwrap_or(0);
                assert!(times >= least, "{case}: {times} times with seed {seed}");
            }
            // About seven lines in ten are accepted.
            assert!(found["accepted"] <= 3750);
        }
    }
}
