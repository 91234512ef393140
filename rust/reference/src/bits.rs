//! Bits one at a time, most significant first.

/// The bits of some bytes, from a bit place on.
pub struct Bits<'a> {
    bytes: &'a [u8],
    place: usize,
}

impl<'a> Bits<'a> {
    /// All bits of the bytes.
    pub fn new(bytes: &'a [u8]) -> Self {
        Bits { bytes, place: 0 }
    }

    /// The next bit, or nothing at the end.
    fn bit(&mut self) -> Option<bool> {
        let byte = self.bytes.get(self.place / 8)?;
        let bit = byte >> (7 - self.place % 8) & 1 == 1;
        self.place += 1;
        Some(bit)
    }

    /// The next `width` bits as a number, or nothing if they end too early.
    pub fn field(&mut self, width: u32) -> Option<u32> {
        let mut number = 0;
        for _ in 0..width {
            number = 2 * number + u32::from(self.bit()?);
        }
        Some(number)
    }

    /// Whether the rest is only what fills up the last byte, and all of it zero.
    pub fn only_filling(mut self) -> bool {
        while !self.place.is_multiple_of(8) {
            if self.bit() != Some(false) {
                return false;
            }
        }
        self.place / 8 == self.bytes.len()
    }
}

/// The bits of a number of the given width.
pub fn put(bits: &mut Vec<bool>, width: u32, number: u32) {
    for place in (0..width).rev() {
        bits.push(number >> place & 1 == 1);
    }
}

/// The bytes that bits make, the last filled up with zero bits.
pub fn bytes(bits: &[bool]) -> Vec<u8> {
    let byte = |bits: &[bool]| (0..8).fold(0, |byte, place| 2 * byte + u8::from(bits.get(place) == Some(&true)));
    bits.chunks(8).map(byte).collect()
}
