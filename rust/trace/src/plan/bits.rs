//! "Bit-packed, most significant bit first": numbers of a few bits.

/// Reads numbers, and knows the bit it stands at.
#[derive(Clone, Debug)]
pub struct Reader<'a> {
    bytes: &'a [u8],
    /// The next bit.
    pub at: usize,
}

impl<'a> Reader<'a> {
    /// A reader before the first bit.
    pub fn new(bytes: &'a [u8]) -> Self {
        Reader { bytes, at: 0 }
    }

    /// The number that the next `width` bits make; bits past the end are 0.
    pub fn take(&mut self, width: usize) -> usize {
        let number = (self.at..self.at + width).fold(0, |number, bit| number * 2 + self.bit(bit));
        self.at += width;
        number
    }

    fn bit(&self, bit: usize) -> usize {
        let byte = self.bytes.get(bit / 8).copied().unwrap_or(0);
        usize::from(byte >> (7 - bit % 8) & 1)
    }

    /// The first bit that is set from here to the end of the bytes.
    pub fn first_set(&self) -> Option<usize> {
        (self.at..8 * self.bytes.len()).find(|&bit| self.bit(bit) == 1)
    }
}

/// Writes numbers one after the other.
#[derive(Clone, Debug, Default)]
pub struct Writer {
    bytes: Vec<u8>,
    used: usize,
}

impl Writer {
    /// Appends the low `width` bits of a number.
    pub fn push(&mut self, number: usize, width: usize) {
        for bit in (0..width).rev() {
            if self.used.is_multiple_of(8) {
                self.bytes.push(0);
            }
            self.bytes[self.used / 8] |= ((number >> bit & 1) as u8) << (7 - self.used % 8);
            self.used += 1;
        }
    }

    /// The bytes, the last one filled with zero bits.
    pub fn finish(self) -> Vec<u8> {
        self.bytes
    }
}
