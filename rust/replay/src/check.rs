//! CRC-32 of a text, by which the page sees that its state is the recorded one.

/// CRC-32 (the one of zip files) in base sixteen.
pub fn sum(text: &str) -> String {
    let mut crc = u32::MAX;
    for byte in text.bytes() {
        crc = TABLE[((crc ^ u32::from(byte)) & 0xFF) as usize] ^ (crc >> 8);
    }
    format!("{:x}", !crc)
}

/// The sums of the 256 bytes.
const TABLE: [u32; 256] = table();

/// Works out [`TABLE`].
const fn table() -> [u32; 256] {
    let mut table = [0; 256];
    let mut byte = 0;
    while byte < 256 {
        let mut value = byte as u32;
        let mut bit = 0;
        while bit < 8 {
            value = if value & 1 == 1 { 0xEDB8_8320 ^ (value >> 1) } else { value >> 1 };
            bit += 1;
        }
        table[byte] = value;
        byte += 1;
    }
    table
}

#[cfg(test)]
mod tests {
    use super::sum;

    #[test]
    fn the_known_sum_of_nine_digits() {
        assert_eq!(sum("123456789"), "cbf43926");
        assert_eq!(sum(""), "0");
    }
}
