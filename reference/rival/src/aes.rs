//! AES-128 by one table of 256 words, and the Core Specification's ah. The round keys are worked out once for a monitor.

use crate::frame::Device;

const SUBSTITUTES: [u8; 256] = substitutes();
const COLUMNS: [u32; 256] = columns();

/// Times x in the field of FIPS 197.
const fn doubled(a: u8) -> u8 {
    (a << 1) ^ if a & 0x80 != 0 { 0x1B } else { 0 }
}

/// p goes through the powers of 3, q through those of its inverse.
const fn substitutes() -> [u8; 256] {
    let mut table = [0x63; 256];
    let (mut p, mut q) = (1u8, 1u8);
    loop {
        p ^= doubled(p);
        q ^= q << 1;
        q ^= q << 2;
        q ^= q << 4;
        if q & 0x80 != 0 {
            q ^= 0x09;
        }
        let affine = q ^ q.rotate_left(1) ^ q.rotate_left(2) ^ q.rotate_left(3) ^ q.rotate_left(4);
        table[p as usize] = affine ^ 0x63;
        if p == 1 {
            return table;
        }
    }
}

/// Each substitute times the column 2, 1, 1, 3.
const fn columns() -> [u32; 256] {
    let mut table = [0; 256];
    let mut at = 0;
    while at < 256 {
        let s = SUBSTITUTES[at];
        table[at] = u32::from_be_bytes([doubled(s), s, s, doubled(s) ^ s]);
        at += 1;
    }
    table
}

/// The round keys of a key.
#[derive(Clone)]
pub struct Cipher([[u32; 4]; 11]);

impl Cipher {
    /// The key with its least significant octet first.
    pub fn new(mut key: [u8; 16]) -> Cipher {
        key.reverse();
        let mut words = [[0; 4]; 11];
        for (word, octets) in words[0].iter_mut().zip(key.as_chunks::<4>().0) {
            *word = u32::from_be_bytes(*octets);
        }
        let mut constant = 1;
        for round in 1..words.len() {
            let [a, b, c, d] = words[round - 1];
            let turned = d.rotate_left(8).to_be_bytes().map(|octet| SUBSTITUTES[usize::from(octet)]);
            let first = a ^ u32::from_be_bytes(turned) ^ (u32::from(constant) << 24);
            words[round] = [first, first ^ b, first ^ b ^ c, first ^ b ^ c ^ d];
            constant = doubled(constant);
        }
        Cipher(words)
    }

    pub fn encrypt(&self, block: [u32; 4]) -> [u32; 4] {
        let [first, middle @ .., last] = &self.0;
        let mut state = mixed(block, first);
        for key in middle {
            let round = |i: usize| {
                let [a, b, c, d] = rows(&state, i).map(|octet| COLUMNS[octet]);
                a ^ b.rotate_right(8) ^ c.rotate_right(16) ^ d.rotate_right(24)
            };
            state = mixed([round(0), round(1), round(2), round(3)], key);
        }
        let round = |i: usize| u32::from_be_bytes(rows(&state, i).map(|octet| SUBSTITUTES[octet]));
        mixed([round(0), round(1), round(2), round(3)], last)
    }

    /// Whether this key made the private address.
    pub fn resolves(&self, device: Device) -> bool {
        let [kind, h0, h1, h2, p0, p1, p2, _] = device.octets();
        if kind != 1 || p2 >> 6 != 1 {
            return false;
        }
        let [.., last] = self.encrypt([0, 0, 0, u32::from_be_bytes([0, p2, p1, p0])]);
        last & 0xFF_FFFF == u32::from_be_bytes([0, h2, h1, h0])
    }
}

/// The octets that go into column i: the rows shifted.
fn rows(state: &[u32; 4], i: usize) -> [usize; 4] {
    let octet = |column: usize, shift: u32| (state[column % 4] >> shift & 0xFF) as usize;
    [octet(i, 24), octet(i + 1, 16), octet(i + 2, 8), octet(i + 3, 0)]
}

fn mixed(a: [u32; 4], b: &[u32; 4]) -> [u32; 4] {
    [a[0] ^ b[0], a[1] ^ b[1], a[2] ^ b[2], a[3] ^ b[3]]
}

#[cfg(test)]
mod tests {
    use super::*;

    /// FIPS 197, appendix C.1.
    #[test]
    fn sample_of_fips_197() {
        let key: [u8; 16] = std::array::from_fn(|i| 15 - i as u8);
        let block = [0x00112233, 0x44556677, 0x8899AABB, 0xCCDDEEFF];
        assert_eq!(Cipher::new(key).encrypt(block), [0x69C4E0D8, 0x6A7B0430, 0xD8CDB780, 0x70B4C55A]);
    }

    /// The Core Specification, Vol 3, Part H, D.7: key and address.
    #[test]
    fn sample_of_the_core() {
        let cipher = Cipher::new(0xEC0234A357C8AD05341010A60A397D9Bu128.to_le_bytes());
        let address = [0xAA, 0xFB, 0x0D, 0x94, 0x81, 0x70];
        assert!(cipher.resolves(Device::new(1, address)));
        assert!(!cipher.resolves(Device::new(0, address)));
        assert!(!cipher.resolves(Device::new(1, [0xAB, 0xFB, 0x0D, 0x94, 0x81, 0x70])));
    }
}
