//! CRC-32C by tables.

/// Table 0 is the register after one byte; table k is the same, with k zero bytes behind it.
static TABLES: [[u32; 256]; 8] = tables();

const fn tables() -> [[u32; 256]; 8] {
    let mut tables = [[0; 256]; 8];
    let mut byte = 0;
    while byte < 256 {
        let mut register = byte as u32;
        let mut bit = 0;
        while bit < 8 {
            let carry = register & 1;
            register = (register >> 1) ^ (carry * 0x82F6_3B78);
            bit += 1;
        }
        tables[0][byte] = register;
        byte += 1;
    }
    let mut k = 1;
    while k < 8 {
        let mut byte = 0;
        while byte < 256 {
            let before = tables[k - 1][byte];
            tables[k][byte] = before >> 8 ^ tables[0][before as usize & 0xFF];
            byte += 1;
        }
        k += 1;
    }
    tables
}

/// CRC-32C, a byte at a time.
pub fn crc32c_by_table(bytes: &[u8]) -> u32 {
    !by_byte(!0, bytes)
}

/// CRC-32C, eight bytes at a time.
pub fn crc32c_by_8(bytes: &[u8]) -> u32 {
    let mut register = !0u32;
    let (eights, rest) = bytes.as_chunks::<8>();
    for eight in eights {
        let both = u64::from_le_bytes(*eight) ^ u64::from(register);
        register = TABLES[7][both as usize & 0xFF]
            ^ TABLES[6][(both >> 8) as usize & 0xFF]
            ^ TABLES[5][(both >> 16) as usize & 0xFF]
            ^ TABLES[4][(both >> 24) as usize & 0xFF]
            ^ TABLES[3][(both >> 32) as usize & 0xFF]
            ^ TABLES[2][(both >> 40) as usize & 0xFF]
            ^ TABLES[1][(both >> 48) as usize & 0xFF]
            ^ TABLES[0][(both >> 56) as usize];
    }
    !by_byte(register, rest)
}

fn by_byte(mut register: u32, bytes: &[u8]) -> u32 {
    for byte in bytes {
        register = register >> 8 ^ TABLES[0][(register as u8 ^ byte) as usize];
    }
    register
}

#[cfg(test)]
mod tests {
    use super::*;
    use crate::inputs::Rng;
    use crate::second::crc32c;

    #[test]
    fn the_nine_characters() {
        assert_eq!(crc32c_by_table(b"123456789"), 0xE306_9283);
        assert_eq!(crc32c_by_8(b"123456789"), 0xE306_9283);
    }

    #[test]
    fn all_ways_agree() {
        let mut rng = Rng::new(1);
        for length in (0..70).chain([4096, 4107, 4111]) {
            let bytes = rng.bytes(length);
            assert_eq!(crc32c_by_table(&bytes), crc32c(&bytes));
            assert_eq!(crc32c_by_8(&bytes), crc32c(&bytes));
        }
    }
}
