//! CRC-64/XZ: the checksum of a catalogue's file. It finds every damage within 64 bits that follow each other, and any other but for one in 2^64.

/// The polynomial of ECMA-182, lowest bit first.
const POLYNOMIAL: u64 = 0xC96C_5795_D787_0F42;

/// What a byte adds, when so many bytes follow it in a step of eight.
const TABLES: [[u64; 256]; 8] = tables();

const fn tables() -> [[u64; 256]; 8] {
    let mut tables = [[0; 256]; 8];
    let mut byte = 0;
    while byte < 256 {
        let mut sum = byte as u64;
        let mut bit = 0;
        while bit < 8 {
            sum = if sum & 1 == 1 { (sum >> 1) ^ POLYNOMIAL } else { sum >> 1 };
            bit += 1;
        }
        tables[0][byte] = sum;
        byte += 1;
    }
    let mut follow = 1;
    while follow < 8 {
        let mut byte = 0;
        while byte < 256 {
            let before = tables[follow - 1][byte];
            tables[follow][byte] = (before >> 8) ^ tables[0][(before & 255) as usize];
            byte += 1;
        }
        follow += 1;
    }
    tables
}

/// The checksum of these parts, one after the other.
pub fn of(parts: &[&[u8]]) -> u64 {
    !parts.iter().fold(!0, |sum, part| extend(sum, part))
}

fn extend(mut sum: u64, bytes: &[u8]) -> u64 {
    let mut eights = bytes.chunks_exact(8);
    for eight in &mut eights {
        let mixed = sum ^ u64::from_le_bytes(eight.try_into().unwrap_or_default());
        sum = (0..8).fold(0, |sum, at| sum ^ TABLES[7 - at][(mixed >> (8 * at) & 255) as usize]);
    }
    eights.remainder().iter().fold(sum, |sum, byte| TABLES[0][((sum ^ *byte as u64) & 255) as usize] ^ (sum >> 8))
}

#[cfg(test)]
mod tests {
    /// The check value that catalogues of checksums give for CRC-64/XZ.
    #[test]
    fn check_value() {
        assert_eq!(super::of(&[b"123456789"]), 0x995D_C9BB_DF19_39FA);
        assert_eq!(super::of(&[b"1234", b"56789"]), 0x995D_C9BB_DF19_39FA);
        assert_eq!(super::of(&[]), 0);
    }
}
