//! Cutting a line of bytes into words.

/// The words of a line, which is given without the byte 10 that ends it.
///
/// Everything from the first `#` on is dropped, inside a word too. What is left is cut at separators; every other byte belongs
/// to a word, also one that is no UTF-8.
pub fn words(line: &[u8]) -> impl Iterator<Item = &[u8]> {
    let before_comment = line.split(|&byte| byte == b'#').next().unwrap_or_default();
    before_comment
        .split(|&byte| is_separator(byte))
        .filter(|word| !word.is_empty())
}

/// Words are separated by spaces, tabs, carriage returns and form feeds only.
fn is_separator(byte: u8) -> bool {
    matches!(byte, b' ' | b'\t' | b'\r' | 0x0c)
}

#[cfg(test)]
mod tests {
    use super::*;

    fn cut(line: &[u8]) -> Vec<&[u8]> {
        words(line).collect()
    }

    #[test]
    fn words_are_cut_at_the_four_separators() {
        assert_eq!(
            cut(b"\t a\x0cb\rc  d\te \r"),
            [b"a", b"b", b"c", b"d", b"e"]
        );
    }

    #[test]
    fn every_other_byte_belongs_to_a_word() {
        for byte in 0..=255u8 {
            let line = [b'a', byte, b'b'];
            let expected = match byte {
                b'#' => 1,
                b' ' | b'\t' | b'\r' | 12 => 2,
                _ => 1,
            };
            assert_eq!(cut(&line).len(), expected, "byte {byte}");
        }
    }

    #[test]
    fn a_comment_begins_at_the_first_hash_even_inside_a_word() {
        assert_eq!(cut(b"ab#c d"), [b"ab"]);
        assert_eq!(cut(b"a #b # c"), [b"a"]);
    }

    #[test]
    fn a_line_may_have_no_words() {
        for line in [&b""[..], b" ", b"\t\r\x0c ", b"#", b"  # a b"] {
            assert!(cut(line).is_empty());
        }
    }
}
