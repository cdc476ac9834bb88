//! Reading decimal numbers, and bytes spelled in hexadecimal digits.

/// Reads an unsigned number of 64 bits: an optional `+`, then one or more digits 0 to 9, and nothing else. Leading zeros are
/// fine, however many. `None` where the word is no such number or does not fit.
pub fn read_u64(word: &[u8]) -> Option<u64> {
    let digits = word.strip_prefix(b"+").unwrap_or(word);
    if digits.is_empty() {
        return None;
    }
    digits.iter().try_fold(0u64, |number, &byte| {
        let digit = match byte {
            b'0'..=b'9' => u64::from(byte - b'0'),
            _ => return None,
        };
        number.checked_mul(10)?.checked_add(digit)
    })
}

/// The same for 32 bits.
pub fn read_u32(word: &[u8]) -> Option<u32> {
    read_u64(word)?.try_into().ok()
}

/// The same for numbers up to a highest one.
pub fn read_up_to(highest: u64, word: &[u8]) -> Option<u64> {
    read_u64(word).filter(|&number| number <= highest)
}

/// Reads bytes of two hexadecimal digits each, in either case. `None` where a digit is none or lacks its pair.
pub fn read_bytes(word: &[u8]) -> Option<Vec<u8>> {
    let (pairs, []) = word.as_chunks::<2>() else {
        return None;
    };
    pairs
        .iter()
        .map(|&[high, low]| Some(16 * hexadecimal_digit(high)? + hexadecimal_digit(low)?))
        .collect()
}

fn hexadecimal_digit(byte: u8) -> Option<u8> {
    match byte {
        b'0'..=b'9' => Some(byte - b'0'),
        b'a'..=b'f' => Some(10 + byte - b'a'),
        b'A'..=b'F' => Some(10 + byte - b'A'),
        _ => None,
    }
}

#[cfg(test)]
mod tests {
    use super::*;

    #[test]
    fn plain_plus_and_leading_zeros() {
        for (word, number) in [
            (&b"0"[..], 0),
            (b"7", 7),
            (b"+7", 7),
            (b"007", 7),
            (b"+0", 0),
            (b"+00012", 12),
            (b"00000000000000000000000000000000000000012", 12),
        ] {
            assert_eq!(read_u64(word), Some(number));
            assert_eq!(read_u32(word), Some(number as u32));
        }
    }

    #[test]
    fn no_numbers() {
        for word in [
            &b""[..],
            b"+",
            b"++1",
            b"+-1",
            b"-1",
            b"-0",
            b"1+",
            b"a",
            b"1a",
            b"0x1",
            b"1.0",
            b"1,000",
            b"1_000",
            b"1\0",
            b"\x0b1",
            b"\xff",
            b"1\xff",
            "٣".as_bytes(),
        ] {
            assert_eq!(read_u64(word), None, "{word:?}");
            assert_eq!(read_u32(word), None, "{word:?}");
        }
    }

    #[test]
    fn the_widths() {
        assert_eq!(read_u32(b"4294967295"), Some(u32::MAX));
        assert_eq!(read_u32(b"4294967296"), None);
        assert_eq!(read_u64(b"4294967296"), Some(1 << 32));
        assert_eq!(read_u64(b"18446744073709551615"), Some(u64::MAX));
        assert_eq!(read_u64(b"+00018446744073709551615"), Some(u64::MAX));
        assert_eq!(read_u64(b"18446744073709551616"), None);
        assert_eq!(read_u64(b"18446744073709551620"), None);
        assert_eq!(read_u64(b"1000000000000000000000000"), None);
    }

    #[test]
    fn a_highest_number() {
        for (word, number) in [
            (&b"0"[..], Some(0)),
            (b"+0001000000", Some(1_000_000)),
            (b"1000001", None),
            (b"4294967296", None),
            (b"18446744073709551616", None),
            (b"-1", None),
        ] {
            assert_eq!(read_up_to(1_000_000, word), number, "{word:?}");
        }
    }

    #[test]
    fn pairs_of_hexadecimal_digits() {
        for (word, bytes) in [
            (&b"00"[..], &[0][..]),
            (b"0fF0", &[15, 240]),
            (b"abcdef", &[0xab, 0xcd, 0xef]),
            (b"ABCDEF", &[0xab, 0xcd, 0xef]),
            (b"0123456789", &[0x01, 0x23, 0x45, 0x67, 0x89]),
        ] {
            assert_eq!(read_bytes(word).as_deref(), Some(bytes));
        }
    }

    #[test]
    fn every_byte_is_a_hexadecimal_digit_or_none() {
        for byte in 0..=255u8 {
            let digit = char::from(byte).to_digit(16).map(|digit| digit as u8);
            assert_eq!(read_bytes(&[b'0', byte]), digit.map(|low| vec![low]));
            assert_eq!(read_bytes(&[byte, b'0']), digit.map(|high| vec![high * 16]));
        }
    }

    #[test]
    fn no_bytes() {
        for word in [
            &b"0"[..],
            b"000",
            b"0x00",
            b"+1",
            b"-1",
            b"1_",
            b"0g",
            "é".as_bytes(),
        ] {
            assert_eq!(read_bytes(word), None, "{word:?}");
        }
    }

    #[test]
    fn numbers_of_any_length() {
        let mut word = vec![b'0'; 4000];
        assert_eq!(read_u32(&word), Some(0));
        word[3999] = b'9';
        assert_eq!(read_u32(&word), Some(9));
        word[0] = b'1';
        assert_eq!(read_u64(&word), None);
        assert_eq!(read_u64(&[b'9'; 4000]), None);
    }
}
