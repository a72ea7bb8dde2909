//! The two check sums, bit by bit.

/// CRC-32C: lowest bit of a byte first, all ones at the start, complemented at the end.
pub fn crc32c(bytes: &[u8]) -> u32 {
    let polynomial = 0x1EDC_6F41u32.reverse_bits();
    let mut register = 0xFFFF_FFFFu32;
    for byte in bytes {
        for bit in 0..8 {
            let differs = (register ^ u32::from(byte >> bit)) & 1 == 1;
            register >>= 1;
            if differs {
                register ^= polynomial;
            }
        }
    }
    !register
}

/// CRC-8 of the SMBus packet error code: highest bit of a byte first, zero at the start.
pub fn crc8(bytes: &[u8]) -> u8 {
    let mut register = 0u8;
    for byte in bytes {
        for bit in (0..8).rev() {
            let differs = (register >> 7) ^ (byte >> bit & 1) == 1;
            register <<= 1;
            if differs {
                register ^= 0x07;
            }
        }
    }
    register
}

/// The bytes with their check word behind them.
pub(super) fn sealed(mut bytes: Vec<u8>) -> Vec<u8> {
    let word = crc32c(&bytes);
    bytes.extend(word.to_le_bytes());
    bytes
}

/// What stands before the check word, if the last four bytes are the right one.
pub(super) fn unsealed(bytes: &[u8]) -> Option<&[u8]> {
    let (before, word) = bytes.split_at(bytes.len().checked_sub(4)?);
    (word == crc32c(before).to_le_bytes()).then_some(before)
}

#[cfg(test)]
mod tests {
    use super::*;

    #[test]
    fn the_nine_characters() {
        assert_eq!(crc32c(b"123456789"), 0xE306_9283);
        assert_eq!(crc8(b"123456789"), 0xF4);
    }

    #[test]
    fn nothing() {
        assert_eq!(crc32c(&[]), 0);
        assert_eq!(crc8(&[]), 0);
    }

    #[test]
    fn sealing() {
        assert_eq!(unsealed(&sealed(vec![1, 2, 3])), Some(&[1, 2, 3][..]));
        assert_eq!(unsealed(&[1, 2, 3]), None);
        assert_eq!(unsealed(&[0, 0, 0, 0]), Some(&[][..]));
        assert_eq!(unsealed(&[0, 0, 0, 1]), None);
    }
}
