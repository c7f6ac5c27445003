//! Bytes as polynomials over GF(2), modulo x^8 + x^4 + x^3 + x + 1.

const MODULUS: u16 = 0x11b;

/// Long multiplication without carries, then the remainder of long division by the modulus.
pub fn product(a: u8, b: u8) -> u8 {
    let mut long = 0;
    for i in 0..8 {
        if b >> i & 1 == 1 {
            long ^= u16::from(a) << i;
        }
    }
    for degree in (8..15).rev() {
        if long >> degree & 1 == 1 {
            long ^= MODULUS << (degree - 8);
        }
    }
    // The remainder has a degree below 8.
    long as u8
}

/// The power 254, which is the inverse of every byte but 0 and takes 0 to 0.
pub fn inverse(a: u8) -> u8 {
    (0..254).fold(1, |power, _| product(power, a))
}

#[cfg(test)]
mod tests {
    use super::*;

    #[test]
    fn products_of_the_standard() {
        assert_eq!(product(0x57, 0x83), 0xc1);
        assert_eq!(product(0x57, 0x13), 0xfe);
        assert_eq!(product(0x57, 0x10), 0x07);
        assert_eq!(product(0x6b, 0x02), 0xd6);
    }

    #[test]
    fn products_are_those_of_repeated_doubling() {
        for a in 0..=255 {
            for b in 0..=255 {
                assert_eq!(product(a, b), by_doubling(a, b));
            }
        }
    }

    fn by_doubling(a: u8, b: u8) -> u8 {
        let (mut sum, mut multiple) = (0, a);
        for i in 0..8 {
            sum ^= if b >> i & 1 == 1 { multiple } else { 0 };
            multiple = multiple << 1 ^ if multiple >= 0x80 { 0x1b } else { 0 };
        }
        sum
    }

    #[test]
    fn inverse_times_byte_is_one() {
        assert_eq!(inverse(0), 0);
        for a in 1..=255 {
            assert_eq!(product(a, inverse(a)), 1);
        }
    }
}
