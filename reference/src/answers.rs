//! Answering a command script.

use std::fs;
use std::io::{self, BufRead, BufReader, BufWriter, Read, Write};

use crate::books::{Basis, Book};
use crate::commands::{Command, Unreadable};
use crate::images::{Fault, check};
use crate::splitting::{Bearer, Share, Split, split};

/// Answers a script of any bytes, line by line, to its end. The only errors are those of reading and writing.
pub fn answer_script(input: impl Read, output: impl Write) -> io::Result<()> {
    let mut input = BufReader::with_capacity(1 << 16, input);
    let mut output = BufWriter::new(output);
    let mut session = Session::default();
    let mut line = Vec::new();
    loop {
        // Before waiting for more input, hand over every answer already due.
        if !input.buffer().contains(&b'\n') {
            output.flush()?;
        }
        // A line ends at byte 10; the last one may lack it.
        line.clear();
        if input.read_until(b'\n', &mut line)? == 0 {
            return output.flush();
        }
        session.answer(line.strip_suffix(b"\n").unwrap_or(&line), &mut output)?;
    }
}

/// What is kept from one command to the next.
pub struct Session {
    /// Whether each share line is followed by its reason. It starts off.
    pub explaining: bool,
    /// The basis of the next opening.
    pub basis: Basis,
    /// How many places of the journal calls may use.
    pub journal_places: u64,
    /// There is none before the first accepted opening.
    pub book: Option<Book>,
}

impl Default for Session {
    fn default() -> Self {
        Self {
            explaining: false,
            basis: Basis::Commitment,
            journal_places: 4096,
            book: None,
        }
    }
}

impl Session {
    /// Answers one line, given without the byte 10 that ends it.
    pub fn answer(&mut self, line: &[u8], output: &mut impl Write) -> io::Result<()> {
        match Command::read(line, self.book.is_some()) {
            Ok(None) => Ok(()),
            Ok(Some(command)) => self.carry_out(command, output),
            Err(unreadable) => writeln!(output, "{}", unreadable.answer()),
        }
    }

    fn carry_out(&mut self, command: Command, output: &mut impl Write) -> io::Result<()> {
        match command {
            Command::Explain { on } => self.explaining = on,
            Command::Basis(basis) => self.basis = basis,
            Command::Journal { places } => self.journal_places = places,
            Command::Split { sum, bearers } => return self.answer_split(sum, &bearers, output),
            Command::Image { image } => return self.answer_opening(&image, output),
            Command::Roll { path } => return self.answer_roll(&path, output),
            Command::Funds => return self.answer_funds(output),
        }
        Ok(())
    }

    /// Opens the book, or leaves it as it was; then the check of the same bytes.
    fn answer_opening(&mut self, image: &[u8], output: &mut impl Write) -> io::Result<()> {
        match Book::open(image, self.basis) {
            Ok(book) => {
                self.book = Some(book);
                writeln!(output, "open ok")?;
            }
            Err(fault) => write_fault(fault, output)?,
        }
        writeln!(output, "check {}", check(image))
    }

    /// The same for the bytes of a file.
    fn answer_roll(&mut self, path: &[u8], output: &mut impl Write) -> io::Result<()> {
        match read_file(path) {
            Some(image) => self.answer_opening(&image, output),
            None => writeln!(output, "{}", Unreadable::BadFile.answer()),
        }
    }

    /// A line for each account, in the order of the roll.
    fn answer_funds(&self, output: &mut impl Write) -> io::Result<()> {
        for account in self.book.iter().flat_map(|book| &book.roll.accounts) {
            writeln!(
                output,
                "{} {} {}",
                account.code, account.funds, account.overnight
            )?;
        }
        Ok(())
    }

    /// A line for each share, in the order of the bearers, or the refusal alone.
    fn answer_split(
        &self,
        sum: u64,
        bearers: &[Bearer],
        output: &mut impl Write,
    ) -> io::Result<()> {
        let split = match split(sum, bearers) {
            Ok(split) => split,
            Err(refusal) => return writeln!(output, "refused {}", refusal.number()),
        };
        for share in &split.shares {
            writeln!(output, "share {} {}", share.bearer.code, share.amount())?;
            if self.explaining {
                write_reason(&split, share, output)?;
            }
        }
        Ok(())
    }
}

/// All the bytes of a file; `None` where they cannot be had, as with a path that is no UTF-8 or that of a folder.
fn read_file(path: &[u8]) -> Option<Vec<u8>> {
    let path = str::from_utf8(path).ok()?;
    fs::read(path).ok()
}

fn write_fault(fault: Fault, output: &mut impl Write) -> io::Result<()> {
    let Fault {
        number,
        place,
        layer,
    } = fault;
    writeln!(
        output,
        "refused {number} place {place} layer {}",
        layer.name()
    )
}

/// The reason of a share. Without any weight the sum is 0 too, and the line has zeros throughout but for code and rank.
fn write_reason(split: &Split, share: &Share, output: &mut impl Write) -> io::Result<()> {
    let Split {
        sum,
        total,
        odd_dollars,
        ..
    } = split;
    let Share {
        bearer,
        whole,
        remainder,
        rank,
        gets_odd_dollar,
        ..
    } = share;
    let Bearer { code, weight } = bearer;
    let gets = if *gets_odd_dollar { "one" } else { "none" };
    writeln!(
        output,
        "# {code}: {sum} x {weight} / {total} = {whole}, remainder {remainder}; \
         rank {rank}, odd dollars {odd_dollars}: gets {gets}"
    )
}

/// The answers to a script that is held in memory.
#[cfg(test)]
pub fn answered(script: &[u8]) -> String {
    let mut output = Vec::new();
    answer_script(script, &mut output).expect("memory neither fails to read nor to write");
    String::from_utf8(output).expect("answers are plain text")
}

#[cfg(test)]
mod tests {
    use super::*;
    use crate::random::Random;

    #[test]
    fn shares_in_the_order_given() {
        assert_eq!(
            answered(b"split 100 13:1 11:1 12:1\n"),
            "share 13 33\nshare 11 34\nshare 12 33\n"
        );
        assert_eq!(
            answered(b"split 10 1:6 2:6 3:2\n"),
            "share 1 4\nshare 2 4\nshare 3 2\n"
        );
        assert_eq!(answered(b"split 7 1:0 2:5"), "share 1 0\nshare 2 7\n");
        assert_eq!(answered(b"split 0"), "");
    }

    #[test]
    fn numbers_are_printed_without_leading_zeros_or_plus() {
        assert_eq!(answered(b"split +007 0004:+05"), "share 4 7\n");
    }

    #[test]
    fn refusals_alone() {
        assert_eq!(answered(b"split 1 1:0 2:0"), "refused 6\n");
        assert_eq!(answered(b"split 1"), "refused 6\n");
        assert_eq!(answered(b"split 1 1:1 01:1"), "refused 15\n");
        assert_eq!(answered(b"split 1000000001 1:1"), "refused 1\n");
        assert_eq!(answered(b"split 0 1:9000000001 1:0"), "refused 1\n");
        assert_eq!(answered(b"split 1 1:0 1:0"), "refused 15\n");
        assert_eq!(answered(b"explain on\nsplit 1 1:0 2:0"), "refused 6\n");
    }

    #[test]
    fn reasons_while_explain_is_on() {
        let script = b"split 1 5:1\nexplain on\nsplit 10 1:6 2:6 3:2\nexplain off\nsplit 1 5:1\n";
        assert_eq!(
            answered(script),
            "share 5 1\n\
             share 1 4\n\
             # 1: 10 x 6 / 14 = 4, remainder 4; rank 1, odd dollars 1: gets none\n\
             share 2 4\n\
             # 2: 10 x 6 / 14 = 4, remainder 4; rank 2, odd dollars 1: gets none\n\
             share 3 2\n\
             # 3: 10 x 2 / 14 = 1, remainder 6; rank 0, odd dollars 1: gets one\n\
             share 5 1\n"
        );
    }

    #[test]
    fn reasons_of_a_sum_of_nothing() {
        assert_eq!(
            answered(b"explain on\nsplit 0 2:0 1:0\nsplit 0 2:7 1:0\n"),
            "share 2 0\n\
             # 2: 0 x 0 / 0 = 0, remainder 0; rank 1, odd dollars 0: gets none\n\
             share 1 0\n\
             # 1: 0 x 0 / 0 = 0, remainder 0; rank 0, odd dollars 0: gets none\n\
             share 2 0\n\
             # 2: 0 x 7 / 7 = 0, remainder 0; rank 1, odd dollars 0: gets none\n\
             share 1 0\n\
             # 1: 0 x 0 / 7 = 0, remainder 0; rank 0, odd dollars 0: gets none\n"
        );
    }

    #[test]
    fn an_unreadable_line_changes_nothing() {
        let script = b"explain on\nexplain ON\nexplain\nexplain off now\nsplit x\nsplit 1 1:1\n";
        assert_eq!(
            answered(script),
            "bad command\nbad command\nbad command\nbad number\nshare 1 1\n\
             # 1: 1 x 1 / 1 = 1, remainder 0; rank 0, odd dollars 0: gets none\n"
        );
    }

    #[test]
    fn the_readers_own_answers_come_before_any_refusal() {
        assert_eq!(answered(b"split 1000000001 1:1 1:1 x"), "bad number\n");
        assert_eq!(answered(b"Split 1000000001 x"), "bad command\n");
    }

    /// A participant 7 and its account 9, with 300 of funds and 5 overnight.
    const ONE_OF_EACH: &str = "01000000340101\
        00000007000000000000000000000000000000000000000009000000070000\
        00000000012c0000000000000005";

    #[test]
    fn openings_and_their_checks() {
        let script = format!(
            "image {ONE_OF_EACH}\nfunds\nimage 02{}\nfunds\n",
            &ONE_OF_EACH[2..]
        );
        assert_eq!(
            answered(script.as_bytes()),
            "open ok\ncheck 0\n9 300 5\nrefused 12 place 0 layer image\ncheck 120000\n9 300 5\n"
        );
        let mut twice = ONE_OF_EACH.replace("0000003401", "0000004902");
        twice.insert_str(14, &ONE_OF_EACH[14..56]);
        assert_eq!(
            answered(format!("image {twice}").as_bytes()),
            "refused 15 place 1 layer book\ncheck 150001\n"
        );
        let high_mark = ONE_OF_EACH.replacen("00000000090000", "02000000090000", 1);
        assert_eq!(
            answered(format!("image {}", high_mark.to_uppercase()).as_bytes()),
            "refused 14 place 27 layer roll\ncheck 140027\n"
        );
    }

    #[test]
    fn funds_of_a_book_without_accounts() {
        let no_accounts = format!("010000001c0100{}", &ONE_OF_EACH[14..56]);
        let script = format!("image {ONE_OF_EACH}\nimage {no_accounts}\nfunds\nfunds now");
        assert_eq!(
            answered(script.as_bytes()),
            "open ok\ncheck 0\nopen ok\ncheck 0\nbad command\n"
        );
    }

    #[test]
    fn a_book_is_there_from_the_first_accepted_opening_on() {
        let script = format!(
            "funds\nfunds now\nimage 01\nfunds\nroll no-such-file\nfunds\nimage {ONE_OF_EACH}\nfunds\n"
        );
        assert_eq!(
            answered(script.as_bytes()),
            "no book\nbad command\nrefused 13 place 0 layer image\ncheck 130000\nno book\n\
             bad file\nno book\nopen ok\ncheck 0\n9 300 5\n"
        );
    }

    #[test]
    fn switches_that_print_nothing() {
        let mut session = Session::default();
        let mut output = Vec::new();
        assert_eq!(session.journal_places, 4096);
        for (line, places) in [
            (&b"journal 1000000"[..], 1_000_000),
            (b"basis commitment", 1_000_000),
            (b"journal +000", 0),
        ] {
            session
                .answer(line, &mut output)
                .expect("memory can be written");
            assert_eq!(session.journal_places, places);
        }
        assert!(output.is_empty());
        for line in [&b"journal 1000001"[..], b"journal 5 6", b"journal -1"] {
            session
                .answer(line, &mut output)
                .expect("memory can be written");
            assert_eq!(session.journal_places, 0);
        }
        assert_eq!(output, b"bad number\nbad command\nbad number\n");
    }

    /// What `roll` answers for a file of these bytes, and `funds` after it.
    fn answered_for_file(name: &str, bytes: &[u8]) -> String {
        let path = std::env::temp_dir().join(format!("{name}-{}", std::process::id()));
        fs::write(&path, bytes).expect("a file can be written");
        let answers = answered(format!("roll {}\nfunds", path.display()).as_bytes());
        fs::remove_file(&path).expect("the file is there");
        answers
    }

    #[test]
    fn openings_from_files() {
        let image = crate::numbers::read_bytes(ONE_OF_EACH.as_bytes()).expect("good digits");
        assert_eq!(
            answered_for_file("good-image", &image),
            "open ok\ncheck 0\n9 300 5\n"
        );
        assert_eq!(
            answered_for_file("empty-image", b""),
            "refused 13 place 0 layer image\ncheck 130000\nno book\n"
        );
        assert_eq!(
            answered_for_file("short-image", &image[..51]),
            "refused 13 place 1 layer image\ncheck 130001\nno book\n"
        );
    }

    #[test]
    fn files_that_cannot_be_read_leave_the_book() {
        for path in [&b"no-such-file"[..], b".", b"/", b"\0", b"x\xff", b"\xff"] {
            let script = [b"roll ", path].concat();
            assert_eq!(answered(&script), "bad file\n");
        }
        let script = format!("image {ONE_OF_EACH}\nroll .\nfunds\n");
        assert_eq!(
            answered(script.as_bytes()),
            "open ok\ncheck 0\nbad file\n9 300 5\n"
        );
    }

    #[test]
    fn lines_end_at_byte_10_only() {
        assert_eq!(answered(b""), "");
        assert_eq!(answered(b"\n\n \n#\n"), "");
        assert_eq!(
            answered(b"split 1 1:1\r\n\r\nsplit 1 2:1"),
            "share 1 1\nshare 2 1\n"
        );
        assert_eq!(answered(b"split 1 1:1\rsplit 1 2:1"), "bad number\n");
        assert_eq!(answered(b"x\0\ny"), "bad command\nbad command\n");
    }

    #[test]
    fn lines_and_numbers_of_any_length() {
        let mut script = vec![b'z'; 1_000_000];
        script.extend(b"\nsplit ");
        script.extend([b'0'; 4000]);
        script.extend(b"3 1:1\nsplit ");
        script.extend([b'3'; 4000]);
        script.extend(b" 1:1\nsplit 1");
        script.extend(b" 1:1".repeat(250_000));
        script.extend(b"\nsplit 2");
        script.extend(b" \t\r".repeat(300_000));
        script.extend(b"1:1");
        assert_eq!(
            answered(&script),
            "bad command\nshare 1 3\nbad number\nrefused 1\nshare 1 2\n"
        );
    }

    #[test]
    fn any_bytes_at_all_are_answered() {
        let mut random = Random::new(7);
        let script: Vec<u8> = (0..300_000).map(|_| random.below(256) as u8).collect();
        let with_words = script
            .split(|&byte| byte == b'\n')
            .filter(|line| crate::lines::words(line).next().is_some())
            .count();
        assert_eq!(answered(&script), "bad command\n".repeat(with_words));
    }
}
