//! AES-128 encryption as FIPS 197 has it, section by section. The substitution table is worked out from its rule.

use crate::fault::Fault;
use std::sync::OnceLock;

const NB: usize = 4;
const NK: usize = 4;
const NR: usize = 10;

/// The state, `state[row][column]`.
type State = [[u8; NB]; 4];

/// A word of the key schedule.
type Word = [u8; 4];

/// Multiplication by x modulo x^8 + x^4 + x^3 + x + 1 (4.2.1).
fn xtime(a: u8) -> u8 {
    a << 1 ^ if a & 0x80 != 0 { 0x1B } else { 0 }
}

/// Multiplication in GF(2^8) (4.2).
fn times(a: u8, b: u8) -> u8 {
    let (mut sum, mut power) = (0, a);
    for bit in 0..8 {
        if b >> bit & 1 == 1 {
            sum ^= power;
        }
        power = xtime(power);
    }
    sum
}

/// The substitution table (5.1.1): the inverse in GF(2^8), 0 for 0, then the affine map.
fn table() -> &'static [u8; 256] {
    static TABLE: OnceLock<[u8; 256]> = OnceLock::new();
    TABLE.get_or_init(|| {
        std::array::from_fn(|a| {
            let inverse = (1..=255).find(|b| times(a as u8, *b) == 1).unwrap_or(0);
            let bit = |i: usize| inverse >> (i % 8) & 1;
            (0..8).fold(0, |octet, i| {
                let sum = bit(i) ^ bit(i + 4) ^ bit(i + 5) ^ bit(i + 6) ^ bit(i + 7) ^ (0x63 >> i & 1);
                octet | sum << i
            })
        })
    })
}

/// An entry of the table.
pub fn substitute(octet: u8, fault: Fault) -> u8 {
    let entry = table()[octet as usize];
    if octet == 0x53 && fault == Fault::TableEntry {
        return entry ^ 1;
    }
    entry
}

/// KeyExpansion (5.2).
pub fn expand(key: &[u8; 16], fault: Fault) -> Vec<Word> {
    let mut words: Vec<Word> = key.chunks(4).map(|word| word.try_into().unwrap()).collect();
    let mut constant = 1;
    for i in NK..NB * (NR + 1) {
        let mut word = words[i - 1];
        if i % NK == 0 {
            word.rotate_left(1);
            word = word.map(|octet| substitute(octet, fault));
            word[0] ^= constant;
            constant = xtime(constant);
        }
        words.push(std::array::from_fn(|place| word[place] ^ words[i - NK][place]));
    }
    words
}

/// AddRoundKey (5.1.4): the words of a round are the columns.
fn add_round_key(state: &mut State, words: &[Word]) {
    for (row, octets) in state.iter_mut().enumerate() {
        for (column, octet) in octets.iter_mut().enumerate() {
            *octet ^= words[column][row];
        }
    }
}

/// ShiftRows (5.1.2): row r to the left by r.
fn shift_rows(state: &mut State, fault: Fault) {
    for (row, octets) in state.iter_mut().enumerate() {
        match fault {
            Fault::RowsToTheRight => octets.rotate_right(row),
            _ => octets.rotate_left(row),
        }
    }
}

/// MixColumns (5.1.3).
fn mix_columns(state: &mut State) {
    const FACTORS: [[u8; 4]; 4] = [[2, 3, 1, 1], [1, 2, 3, 1], [1, 1, 2, 3], [3, 1, 1, 2]];
    for column in 0..NB {
        let old: [u8; 4] = std::array::from_fn(|row| state[row][column]);
        for (row, factors) in FACTORS.iter().enumerate() {
            state[row][column] = (0..4).fold(0, |sum, i| sum ^ times(old[i], factors[i]));
        }
    }
}

/// Cipher (5.1).
pub fn encrypt(key: &[u8; 16], block: &[u8; 16], fault: Fault) -> [u8; 16] {
    let words = expand(key, fault);
    let mut state: State = std::array::from_fn(|row| std::array::from_fn(|column| block[row + 4 * column]));
    add_round_key(&mut state, &words[..NB]);
    for round in 1..=NR {
        state = state.map(|row| row.map(|octet| substitute(octet, fault)));
        shift_rows(&mut state, fault);
        if round < NR || fault == Fault::LastRoundMixed {
            mix_columns(&mut state);
        }
        add_round_key(&mut state, &words[NB * round..NB * (round + 1)]);
    }
    std::array::from_fn(|i| state[i % 4][i / 4])
}
