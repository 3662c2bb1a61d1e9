//! "Bit-packed, most significant bit first": reading and writing numbers of a few bits.

/// Reads numbers from bytes, most significant bit first.
#[derive(Clone, Debug)]
pub struct BitReader<'a> {
    bytes: &'a [u8],
    at: usize,
}

impl<'a> BitReader<'a> {
    /// A reader that stands before the first bit.
    pub fn new(bytes: &'a [u8]) -> Self {
        BitReader { bytes, at: 0 }
    }

    /// The number that the next `width` bits make, for a width from 1 to 8.
    pub fn take(&mut self, width: usize) -> usize {
        debug_assert!((1..=8).contains(&width));
        let byte = self.at / 8;
        let low = self.bytes.get(byte + 1).copied().unwrap_or(0);
        let window = u16::from_be_bytes([self.bytes[byte], low]);
        let number = (window << (self.at % 8)) >> (16 - width);
        self.at += width;
        usize::from(number)
    }
}

/// "A fill bit set": one of the bits after the first `bits`, up to the end of their byte.
pub fn has_fill_bit(bytes: &[u8], bits: usize) -> bool {
    match bits % 8 {
        0 => false,
        used => bytes[bits / 8] << used != 0,
    }
}

/// Writes numbers one after the other, most significant bit first.
#[derive(Clone, Debug, Default)]
pub struct BitWriter {
    bytes: Vec<u8>,
    used: usize,
}

impl BitWriter {
    /// Appends `number` in `width` bits.
    pub fn push(&mut self, number: usize, width: usize) {
        for bit in (0..width).rev() {
            if self.used.is_multiple_of(8) {
                self.bytes.push(0);
            }
            if number >> bit & 1 == 1 {
                set_bit(&mut self.bytes, self.used);
            }
            self.used += 1;
        }
    }

    /// The bytes, the last one filled with zero bits.
    pub fn finish(self) -> Vec<u8> {
        self.bytes
    }
}

/// Writes `number` over the `width` bits from bit `at` on.
pub fn overwrite(bytes: &mut [u8], at: usize, width: usize, number: usize) {
    for bit in 0..width {
        clear_bit(bytes, at + bit);
        if number >> (width - 1 - bit) & 1 == 1 {
            set_bit(bytes, at + bit);
        }
    }
}

/// Turns bit `at` over.
pub fn flip_bit(bytes: &mut [u8], at: usize) {
    bytes[at / 8] ^= 0x80 >> (at % 8);
}

fn set_bit(bytes: &mut [u8], at: usize) {
    bytes[at / 8] |= 0x80 >> (at % 8);
}

fn clear_bit(bytes: &mut [u8], at: usize) {
    bytes[at / 8] &= !(0x80 >> (at % 8));
}

#[cfg(test)]
mod tests {
    use super::*;

    #[test]
    fn what_is_written_is_read_at_every_width() {
        for offset in 0..8 {
            for width in 1..=8 {
                for number in 0..1 << width {
                    let mut writer = BitWriter::default();
                    if offset > 0 {
                        writer.push(0, offset);
                    }
                    writer.push(number, width);
                    let bytes = writer.finish();
                    let mut reader = BitReader::new(&bytes);
                    if offset > 0 {
                        assert_eq!(reader.take(offset), 0);
                    }
                    assert_eq!(reader.take(width), number);
                    assert!(!has_fill_bit(&bytes, offset + width));
                }
            }
        }
    }

    #[test]
    fn a_fill_bit_is_seen() {
        let bytes = [0b1010_0001];
        assert_eq!(BitReader::new(&bytes).take(3), 0b101);
        assert!(has_fill_bit(&bytes, 3));
        assert!(!has_fill_bit(&bytes, 8));
    }

    #[test]
    fn overwriting_touches_its_bits_only() {
        let mut bytes = [0xFF, 0x00];
        overwrite(&mut bytes, 5, 6, 0b010101);
        assert_eq!(bytes, [0b1111_1010, 0b1010_0000]);
    }
}
