//! Bytes as words of hex digits, with `-` for no bytes.

pub fn shown(bytes: &[u8]) -> String {
    if bytes.is_empty() {
        return "-".to_string();
    }
    let digits = bytes.iter().flat_map(|byte| [byte >> 4, byte & 0x0f]);
    digits
        .map(|digit| char::from(b"0123456789abcdef"[usize::from(digit)]))
        .collect()
}

pub fn read(word: &[u8]) -> Option<Vec<u8>> {
    if word == b"-" {
        return Some(Vec::new());
    }
    let (pairs, odd) = word.as_chunks::<2>();
    if pairs.is_empty() || !odd.is_empty() {
        return None;
    }
    pairs
        .iter()
        .map(|[high, low]| Some(digit(*high)? << 4 | digit(*low)?))
        .collect()
}

fn digit(letter: u8) -> Option<u8> {
    match letter {
        b'0'..=b'9' => Some(letter - b'0'),
        b'a'..=b'f' => Some(letter - b'a' + 10),
        b'A'..=b'F' => Some(letter - b'A' + 10),
        _ => None,
    }
}

/// The bytes of a word that a test gives.
#[cfg(test)]
pub fn bytes(word: &str) -> Vec<u8> {
    read(word.as_bytes()).expect("a test gives good hex")
}

/// The fixed number of bytes of a word that a test gives.
#[cfg(test)]
pub fn array<const N: usize>(word: &str) -> [u8; N] {
    bytes(word)
        .try_into()
        .expect("a test gives the right length")
}

#[cfg(test)]
mod tests {
    use super::*;

    #[test]
    fn reads_either_case_and_the_dash() {
        assert_eq!(read(b"00fFAa9"), None);
        assert_eq!(read(b"00fFAa"), Some(vec![0x00, 0xff, 0xaa]));
        assert_eq!(read(b"-"), Some(Vec::new()));
    }

    #[test]
    fn refuses_everything_else() {
        for word in [
            &b""[..],
            b"--",
            b"-0",
            b"0g",
            b"0",
            b"+1",
            b"0x",
            b"1\r",
            b"\xff\xff",
        ] {
            assert_eq!(read(word), None);
        }
    }

    #[test]
    fn shows_lower_case() {
        assert_eq!(shown(&[0x0f, 0xa0]), "0fa0");
        assert_eq!(shown(&[]), "-");
    }
}
