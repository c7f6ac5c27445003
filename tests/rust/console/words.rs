//! Words of a line: hex digits both ways, and decimal numbers.

const NOT_HEX: u8 = 0xff;

/// The value of each digit.
const DIGITS: [u8; 256] = {
    let mut digits = [NOT_HEX; 256];
    let mut value = 0;
    while value < 16 {
        digits[b"0123456789abcdef"[value] as usize] = value as u8;
        digits[b"0123456789ABCDEF"[value] as usize] = value as u8;
        value += 1;
    }
    digits
};

/// The bytes that a word stands for; `-` stands for none.
pub fn bytes(word: &[u8]) -> Option<Vec<u8>> {
    if word == b"-" {
        return Some(Vec::new());
    }
    if word.is_empty() || word.len() % 2 != 0 {
        return None;
    }
    let mut bytes = Vec::with_capacity(word.len() / 2);
    for pair in word.chunks_exact(2) {
        let (high, low) = (DIGITS[usize::from(pair[0])], DIGITS[usize::from(pair[1])]);
        if high == NOT_HEX || low == NOT_HEX {
            return None;
        }
        bytes.push(high << 4 | low);
    }
    Some(bytes)
}

/// Exactly N bytes.
pub fn array<const N: usize>(word: &[u8]) -> Option<[u8; N]> {
    bytes(word)?.try_into().ok()
}

/// Decimal digits alone, for a number that fits.
pub fn number<T: TryFrom<u64>>(word: &[u8]) -> Option<T> {
    if word.is_empty() {
        return None;
    }
    let mut value = 0u64;
    for letter in word {
        let digit = letter.checked_sub(b'0').filter(|digit| *digit < 10)?;
        value = value.checked_mul(10)?.checked_add(u64::from(digit))?;
    }
    T::try_from(value).ok()
}

pub fn hex(bytes: &[u8]) -> String {
    if bytes.is_empty() {
        return "-".to_string();
    }
    let mut text = String::with_capacity(2 * bytes.len());
    for byte in bytes {
        for digit in [byte >> 4, byte & 15] {
            text.push(char::from(b"0123456789abcdef"[usize::from(digit)]));
        }
    }
    text
}
