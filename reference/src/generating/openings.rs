//! Writing command scripts about roll images and the books that are opened from them.

use std::collections::VecDeque;
use std::io::{self, Write};

use crate::images::writing::image_of;
use crate::random::Random;

use super::digits::{self, Words};
use super::{damages, rolls, rows, spelling, write_lines};

type Line = Vec<u8>;

/// Writes a script of this many lines about images.
pub fn write_script(seed: u64, count: u64, output: impl Write) -> io::Result<()> {
    let mut script = Script::new(seed);
    write_lines(seed, count, output, || script.line())
}

/// An endless script: some lines before any book is open, then rounds of some two thousand lines. In each round every fault
/// is made in turn, in other images and in another order.
pub struct Script {
    random: Random,
    /// The lines of the present round that are still to come.
    coming: VecDeque<Line>,
}

impl Script {
    pub fn new(seed: u64) -> Self {
        let mut random = Random::new(seed);
        let coming = before_any_book(&mut random).into();
        Self { random, coming }
    }

    /// The next line, without the byte 10 that ends it.
    pub fn line(&mut self) -> Line {
        loop {
            match self.coming.pop_front() {
                Some(line) => return line,
                None => self.coming = round(&mut self.random).into(),
            }
        }
    }
}

/// Asks for funds while there is no book, after each thing that opens none; at last a book is opened.
fn before_any_book(random: &mut Random) -> Vec<Line> {
    let [good, refused] = damages::orphaned(random).map(|image| image_line(random, &image));
    let lines: [&[u8]; 13] = [
        b"funds",
        b"funds extra",
        b"image",
        b"image 0",
        b"image zz",
        b"image 01",
        b"roll no-such-file",
        b"roll /dev/null",
        b"basis commitment",
        b"journal 5",
        b"journal 1000001",
        &refused,
        &good,
    ];
    lines
        .into_iter()
        .flat_map(|line| [line.to_vec(), b"funds".to_vec()])
        .collect()
}

/// Every fault made in turn, many by chance, good images and the other commands, in any order.
fn round(random: &mut Random) -> Vec<Line> {
    let mut images = damages::one_by_one(random);
    images.extend((0..160).map(|_| good_image(random)));
    images.extend((0..200).map(|_| damages::several(random)));
    images.extend((0..30).map(|_| damages::noise(random)));
    // Each of these is one thing, whose lines stay together.
    let mut things: Vec<Vec<Line>> = images.iter().map(|image| opening(random, image)).collect();
    for _ in 0..20 {
        let two = damages::orphaned(random);
        things.push(two.map(|image| opening(random, &image)).concat());
    }
    things.extend((0..330).map(|_| vec![other_line(random)]));
    random.shuffle(&mut things);
    things.concat()
}

fn good_image(random: &mut Random) -> Vec<u8> {
    let size = rolls::size(random);
    let mut roll = rolls::good(random, size);
    if random.percent(20) {
        rolls::fill(random, &mut roll);
    }
    image_of(&roll)
}

/// An opening, and then often the funds of the book that is there.
fn opening(random: &mut Random, image: &[u8]) -> Vec<Line> {
    let mut lines = vec![image_line(random, image)];
    if random.percent(35) {
        lines.push(spelling::lay_out(random, &funds_words()));
    }
    lines
}

fn image_line(random: &mut Random, image: &[u8]) -> Line {
    let words = digits::image_words(random, image);
    spelling::lay_out(random, &words)
}

fn funds_words() -> Words {
    vec![b"funds".to_vec()]
}

/// A command that opens no book.
fn other_line(random: &mut Random) -> Line {
    let words = match random.below(100) {
        0..8 => return spelling::silent_line(random),
        8..34 => {
            let image = image_of(&rolls::good(random, (1, 1)));
            digits::unreadable_image_words(random, &image)
        }
        34..58 => digits::bad_command(random),
        58..74 => digits::journal_words(random),
        74..86 => digits::roll_words(random),
        86..90 => vec![b"basis".to_vec(), b"commitment".to_vec()],
        90..95 => funds_words(),
        // Splits know nothing of books.
        _ => {
            let length = random.index(4);
            let row = rows::accepted(random, length);
            spelling::split_words(random, &row)
        }
    };
    spelling::lay_out(random, &words)
}

#[cfg(test)]
mod tests {
    use std::collections::BTreeMap;

    use super::*;
    use crate::answers::answered;
    use crate::commands::Command;
    use crate::generating::seed_decides;
    use crate::images::{Layer, faults, read_image};

    fn script(seed: u64, count: u64) -> Vec<u8> {
        let mut script = Vec::new();
        write_script(seed, count, &mut script).expect("memory can be written");
        script
    }

    #[test]
    fn the_same_seed_writes_the_same_script() {
        seed_decides(script);
    }

    #[test]
    fn a_script_of_3000_lines_is_short_and_has_a_whole_round() {
        for seed in 1..=5 {
            let script = script(seed, 3000);
            let answers = answered(&script);
            assert!(script.len() < 1_000_000, "{} bytes", script.len());
            assert!(answers.len() < 300_000, "{} bytes", answers.len());

            let mut random = Random::new(seed);
            let lines = [before_any_book(&mut random), round(&mut random)].concat();
            assert!(lines.len() < 2500, "{} lines", lines.len());
            assert!(lines.iter().all(|line| !line.contains(&b'\n')));
            assert!(script.starts_with(&lines.join(&b'\n')));
        }
    }

    #[test]
    fn no_book_is_open_at_first() {
        let mut random = Random::new(3);
        let lines = before_any_book(&mut random);
        let (refused, good) = lines.split_at(lines.len() - 2);
        let answers = answered(&refused.join(&b'\n'));
        assert_eq!(answers.matches("no book").count(), refused.len() / 2 + 1);
        let good = Command::read(&good[0], false);
        assert!(matches!(good, Ok(Some(Command::Image { image })) if read_image(&image).is_ok()));
    }

    /// A fault by number and layer, without its place.
    type Kind = (u32, Layer);

    const VERSION: Kind = (12, Layer::Image);
    const LENGTH: Kind = (13, Layer::Image);
    const COUNT: Kind = (14, Layer::Image);
    const FIELD: Kind = (14, Layer::Roll);
    const TWICE: Kind = (15, Layer::Book);
    const STRANGER: Kind = (16, Layer::Book);
    const OVERFULL: Kind = (17, Layer::Book);

    /// Which faults are to be found in a script of 3000 lines, and in how many images at least: alone, and before another one,
    /// which would be the answer without it.
    const AT_LEAST: [(&[Kind], usize); 20] = [
        (&[], 400),
        (&[VERSION], 10),
        (&[VERSION, COUNT], 5),
        (&[VERSION, LENGTH], 3),
        (&[COUNT], 3),
        (&[COUNT, COUNT], 10),
        (&[COUNT, LENGTH], 20),
        (&[LENGTH], 200),
        (&[FIELD], 50),
        (&[FIELD, FIELD], 10),
        (&[FIELD, TWICE], 10),
        (&[FIELD, STRANGER], 20),
        (&[FIELD, OVERFULL], 20),
        (&[TWICE], 20),
        (&[TWICE, TWICE], 20),
        (&[TWICE, STRANGER], 20),
        (&[TWICE, OVERFULL], 5),
        (&[STRANGER], 50),
        (&[STRANGER, OVERFULL], 10),
        (&[OVERFULL], 40),
    ];

    /// The images of a script.
    fn images(seed: u64, count: u64) -> Vec<Vec<u8>> {
        script(seed, count)
            .split(|&byte| byte == b'\n')
            .filter_map(|line| match Command::read(line, true) {
                Ok(Some(Command::Image { image })) => Some(image),
                _ => None,
            })
            .collect()
    }

    #[test]
    fn every_fault_comes_up_alone_and_before_others() {
        for seed in 1..=5 {
            let mut found: BTreeMap<Vec<Kind>, usize> = BTreeMap::new();
            for image in images(seed, 3000) {
                let kinds = faults(&image).into_iter().take(2);
                let kinds = kinds.map(|fault| (fault.number, fault.layer)).collect();
                *found.entry(kinds).or_default() += 1;
            }
            for (kinds, least) in AT_LEAST {
                let times = found.get(kinds).copied().unwrap_or(0);
                assert!(times >= least, "{kinds:?}: {times} times with seed {seed}");
            }
        }
    }

    /// How often each answer that is no opening's is to be found at least in a script of 3000 lines.
    const READERS_ANSWERS: [(&str, usize); 4] = [
        ("bad command", 50),
        ("no book", 12),
        ("bad number", 50),
        ("bad file", 20),
    ];

    #[test]
    fn the_readers_own_answers_come_up() {
        for seed in 1..=5 {
            let answers = answered(&script(seed, 3000));
            for (answer, least) in READERS_ANSWERS {
                let times = answers.lines().filter(|&line| line == answer).count();
                assert!(times >= least, "{answer}: {times} times with seed {seed}");
            }
        }
    }
}
