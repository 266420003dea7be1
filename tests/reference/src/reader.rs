//! Packed fields, most significant bit first, with no gaps.

use crate::fault::Fault;

/// A cursor over one file. `past_end` and `bad_fill` are that file's numbers for a field that
/// is not there in full and for what stands behind the last field.
pub struct Reader<'a> {
    bytes: &'a [u8],
    bit: usize,
    past_end: u32,
    bad_fill: u32,
}

impl<'a> Reader<'a> {
    pub fn new(bytes: &'a [u8], past_end: u32, bad_fill: u32) -> Reader<'a> {
        Reader { bytes, bit: 0, past_end, bad_fill }
    }

    /// The position of the next field.
    pub fn bit(&self) -> usize {
        self.bit
    }

    fn length(&self) -> usize {
        self.bytes.len() * 8
    }

    /// The next field, of 1 to 64 bits.
    pub fn field(&mut self, width: usize) -> Result<u64, Fault> {
        let end = self.bit + width;
        if end > self.length() {
            return Err(Fault::at_bit(self.past_end, self.length()));
        }
        let mut value = 0;
        while self.bit < end {
            let left_in_byte = 8 - self.bit % 8;
            let taken = left_in_byte.min(end - self.bit);
            let byte = u64::from(self.bytes[self.bit / 8]);
            let bits = (byte >> (left_in_byte - taken)) & ((1 << taken) - 1);
            value = value << taken | bits;
            self.bit += taken;
        }
        Ok(value)
    }

    /// Behind the last field only zero bits fill the byte, and no byte follows.
    pub fn finish(mut self) -> Result<(), Fault> {
        while !self.bit.is_multiple_of(8) {
            let place = self.bit;
            if self.field(1)? == 1 {
                return Err(Fault::at_bit(self.bad_fill, place));
            }
        }
        if self.bit < self.length() {
            return Err(Fault::at_bit(self.bad_fill, self.bit));
        }
        Ok(())
    }
}
