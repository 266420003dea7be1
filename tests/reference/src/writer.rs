//! Writing packed fields, most significant bit first, with no gaps.

/// A file in the making. The bits of its last byte that no field has taken are zero, as the fill
/// must be.
#[derive(Default)]
pub struct Writer {
    bytes: Vec<u8>,
    /// The bits of the last byte that no field has taken.
    free: usize,
}

impl Writer {
    pub fn new() -> Writer {
        Writer::default()
    }

    /// Adds a field of 1 to 64 bits. The value is below 2^width.
    pub fn field(&mut self, value: u64, width: usize) {
        let mut left = width;
        while left > 0 {
            if self.free == 0 {
                self.bytes.push(0);
                self.free = 8;
            }
            let taken = left.min(self.free);
            left -= taken;
            self.free -= taken;
            let bits = (value >> left) as u8 & (0xFF >> (8 - taken));
            *self.bytes.last_mut().expect("a byte has free bits") |= bits << self.free;
        }
    }

    /// The bytes of the fields and of the fill.
    pub fn finish(self) -> Vec<u8> {
        self.bytes
    }
}

/// The bytes of bits that are spelled out, with spaces anywhere, and of the fill after them.
pub fn spelled(bits: &str) -> Vec<u8> {
    let mut writer = Writer::new();
    for bit in bits.bytes().filter(|bit| !bit.is_ascii_whitespace()) {
        writer.field(u64::from(bit - b'0'), 1);
    }
    writer.finish()
}

#[cfg(test)]
mod tests {
    use super::*;
    use crate::reader::Reader;

    fn written(fields: &[(u64, usize)]) -> Vec<u8> {
        let mut writer = Writer::new();
        for (value, width) in fields {
            writer.field(*value, *width);
        }
        writer.finish()
    }

    #[test]
    fn fields_by_hand() {
        assert_eq!(written(&[]), []);
        assert_eq!(written(&[(1, 1)]), [0x80]);
        assert_eq!(written(&[(0xA5, 8)]), [0xA5]);
        // 001, 00010 and 1: 0010 0010 1000 0000.
        assert_eq!(written(&[(1, 3), (2, 5), (1, 1)]), [0x22, 0x80]);
        // 1 and 0x123 in 12 bits: 1000 1001 0001 1000.
        assert_eq!(written(&[(1, 1), (0x123, 12)]), [0x89, 0x18]);
        assert_eq!(written(&[(u64::MAX, 64)]), [0xFF; 8]);
    }

    #[test]
    fn bits_as_bytes() {
        assert_eq!(spelled("0010 0011 1"), [0x23, 0x80]);
    }

    /// Fields of every width behind every number of bits read back as they were.
    #[test]
    fn fields_read_back() {
        let value = 0x9E37_79B9_7F4A_7C15_u64;
        for before in 1..=8 {
            for width in 1..=64 {
                let fields = [(0, before), (value >> (64 - width), width), (1, 1)];
                let bytes = written(&fields);
                let mut reader = Reader::new(&bytes, 20, 25);
                for (value, width) in fields {
                    assert_eq!(reader.field(width), Ok(value), "{before} {width}");
                }
                assert_eq!(reader.finish(), Ok(()), "{before} {width}");
            }
        }
    }
}
