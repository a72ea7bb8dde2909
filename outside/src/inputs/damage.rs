//! Damage to a message whose check word was right and is left as it was, so that it is wrong.

use super::sources::edge_or_between;
use super::Rng;

/// The kind of the damage, and the damaged bytes, which no reader may accept.
pub fn unsealed(rng: &mut Rng, mut bytes: Vec<u8>) -> (&'static str, Vec<u8>) {
    match rng.below(7) {
        0 => {
            let bit = rng.below(8 * bytes.len());
            bytes[bit / 8] ^= 1 << (bit % 8);
            ("bit flipped", bytes)
        }
        1 => {
            burst(rng, &mut bytes);
            ("up to four bytes changed", bytes)
        }
        2 => {
            let length = edge_or_between(rng, 0, bytes.len() - 1);
            bytes.truncate(length);
            ("cut", bytes)
        }
        3 => {
            let length = edge_or_between(rng, 1, 12);
            bytes.extend(rng.bytes(length));
            ("lengthened", bytes)
        }
        4 => {
            let word = bytes.split_off(bytes.len() - 4);
            bytes.extend(word.iter().map(|byte| !byte));
            ("check word not complemented", bytes)
        }
        5 => {
            let mut word = bytes.split_off(bytes.len() - 4);
            word.reverse();
            word[1] ^= u8::from(word[0] == word[3] && word[1] == word[2]);
            bytes.extend(word);
            ("check word with its highest byte first", bytes)
        }
        _ => {
            let length = rng.between(0, 40);
            ("random bytes", rng.bytes(length))
        }
    }
}

/// A change within 32 bits that follow one another, which CRC-32C always shows.
fn burst(rng: &mut Rng, bytes: &mut [u8]) {
    let length = rng.between(1, 4);
    let place = rng.below(bytes.len() - length + 1);
    bytes[place] ^= rng.byte_but_zero();
    bytes[place + 1..place + length]
        .iter_mut()
        .for_each(|byte| *byte ^= rng.byte());
}
