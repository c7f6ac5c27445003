//! Simplified AES: 16-bit keys and blocks, in the order of steps of the worked example that apprentices do by hand.
//!
//! A state is a matrix of nibbles, filled column by column: the number 2726 has the rows 2 2 and 7 6.

/// x^4 + x + 1.
const MODULUS: u8 = 0b1_0011;

/// The affine step of the S-box: each bit is the sum of three, turned, and of a bit of this.
const ADDED: u8 = 9;

/// What the columns are mixed by, and back.
const MIXED: [[u8; 2]; 2] = [[1, 4], [4, 1]];
const UNMIXED: [[u8; 2]; 2] = [[9, 2], [2, 9]];

type State = [[u8; 2]; 2];

/// The state after each of the three key additions.
pub type States = [u16; 3];

/// The round keys of one key, and both tables.
pub struct Saes {
    keys: [State; 3],
    table: [u8; 16],
    inverse: [u8; 16],
}

impl Saes {
    pub fn new(key: u16) -> Saes {
        let table = table();
        let words = words(key, &table);
        Saes {
            keys: [0, 2, 4].map(|i| state(u16::from_be_bytes([words[i], words[i + 1]]))),
            table,
            inverse: inverted(&table),
        }
    }

    pub fn encrypt(&self, block: u16) -> States {
        let first = added(state(block), self.keys[0]);
        let second = added(mixed(MIXED, turned(self.substituted(first))), self.keys[1]);
        let third = added(turned(self.substituted(second)), self.keys[2]);
        [first, second, third].map(number)
    }

    pub fn decrypt(&self, block: u16) -> States {
        let first = added(state(block), self.keys[2]);
        let second = added(self.unsubstituted(turned(first)), self.keys[1]);
        let third = added(
            self.unsubstituted(turned(mixed(UNMIXED, second))),
            self.keys[0],
        );
        [first, second, third].map(number)
    }

    fn substituted(&self, state: State) -> State {
        state.map(|row| row.map(|nibble| self.table[usize::from(nibble)]))
    }

    fn unsubstituted(&self, state: State) -> State {
        state.map(|row| row.map(|nibble| self.inverse[usize::from(nibble)]))
    }
}

/// Row by row, where nibble i of the number stands in row i mod 2 and column i / 2.
fn state(number: u16) -> State {
    let [left, right] = number.to_be_bytes();
    [[left >> 4, right >> 4], [left & 15, right & 15]]
}

fn number(state: State) -> u16 {
    let [[a, c], [b, d]] = state;
    u16::from_be_bytes([a << 4 | b, c << 4 | d])
}

fn added(state: State, key: State) -> State {
    [0, 1].map(|r| [0, 1].map(|c| state[r][c] ^ key[r][c]))
}

fn turned(state: State) -> State {
    let [first, [a, b]] = state;
    [first, [b, a]]
}

fn mixed(matrix: [[u8; 2]; 2], state: State) -> State {
    matrix.map(|row| [0, 1].map(|c| product(row[0], state[0][c]) ^ product(row[1], state[1][c])))
}

/// w0 to w5, a byte each.
fn words(key: u16, table: &[u8; 16]) -> [u8; 6] {
    let [mut even, mut odd] = key.to_be_bytes();
    let mut words = [even, odd, 0, 0, 0, 0];
    for (i, constant) in [(2, 0x80), (4, 0x30)] {
        // The nibbles change places, and each is substituted.
        let high = table[usize::from(odd & 15)];
        let low = table[usize::from(odd >> 4)];
        even ^= constant ^ (high << 4 | low);
        odd ^= even;
        words[i] = even;
        words[i + 1] = odd;
    }
    words
}

/// Long multiplication without carries, then the remainder of long division by the modulus.
fn product(a: u8, b: u8) -> u8 {
    let mut long = (0..4).fold(0, |sum, i| sum ^ if b >> i & 1 == 1 { a << i } else { 0 });
    for degree in (4..7).rev() {
        if long >> degree & 1 == 1 {
            long ^= MODULUS << (degree - 4);
        }
    }
    long
}

/// The S-box by its rule: the nibble whose product with the given one is 1, or 0 for 0, and then the affine step.
fn table() -> [u8; 16] {
    let mut table = [0; 16];
    for (nibble, entry) in (0..16).zip(&mut table) {
        let inverse = (0..16).find(|other| product(nibble, *other) == 1);
        let x = inverse.unwrap_or(0);
        // Bit i + 1 of x stands in place i once x is turned to the right by one.
        let turned = |by: u32| x >> by | x << (4 - by) & 15;
        *entry = x ^ turned(1) ^ turned(2) ^ ADDED;
    }
    table
}

fn inverted(table: &[u8; 16]) -> [u8; 16] {
    let mut inverse = [0; 16];
    for (nibble, entry) in (0..16).zip(table) {
        inverse[usize::from(*entry)] = nibble;
    }
    inverse
}

#[cfg(test)]
mod tests {
    use super::*;

    #[test]
    fn the_table_is_that_of_the_request() {
        let printed = [9, 4, 10, 11, 13, 1, 8, 5, 6, 2, 0, 3, 12, 14, 15, 7];
        assert_eq!(table(), printed);
    }

    #[test]
    fn products_of_the_worked_example() {
        let products = [
            (4, 9),
            (4, 11),
            (4, 6),
            (4, 5),
            (9, 9),
            (2, 3),
            (9, 14),
            (2, 14),
        ];
        let wanted = [2, 10, 11, 7, 13, 6, 7, 15];
        assert_eq!(products.map(|(a, b)| product(a, b)), wanted);
    }

    #[test]
    fn the_worked_example() {
        let saes = Saes::new(0x1f56);
        assert_eq!(saes.keys.map(number), [0x1f56, 0x1e48, 0x430b]);
        assert_eq!(saes.encrypt(0x2726), [0x3870, 0x8da9, 0x2105]);
        assert_eq!(saes.decrypt(0x2105), [0x620e, 0x93e1, 0x2726]);
    }

    #[test]
    fn another_vector() {
        let saes = Saes::new(0x4af5);
        assert_eq!(saes.encrypt(0xd728), [0x9ddd, 0x2b1b, 0x24ec]);
    }

    #[test]
    fn decryption_undoes_encryption() {
        for key in (0..=u16::MAX).step_by(4099) {
            let saes = Saes::new(key);
            for block in 0..=u16::MAX {
                assert_eq!(saes.decrypt(saes.encrypt(block)[2])[2], block);
            }
        }
    }
}
