//! Fields of bits, most significant bit first (document 01, "Packed blocks").

/// Reads the fields of a block one after another.
pub struct BitReader<'a> {
    block: &'a [u8],
    at: usize,
}

impl<'a> BitReader<'a> {
    pub fn new(block: &'a [u8]) -> Self {
        Self { block, at: 0 }
    }

    /// The next field, or nothing if it passes the end. A field has at most 24 bits.
    pub fn field(&mut self, width: usize) -> Option<u32> {
        let end = self.at + width;
        let bytes = self.block.get(self.at / 8..end.div_ceil(8))?;
        let window = bytes.iter().fold(0u64, |bits, &byte| bits << 8 | u64::from(byte));
        let value = window >> (8 * end.div_ceil(8) - end) & ((1 << width) - 1);
        self.at = end;
        Some(value as u32)
    }

    /// Whether only the zero bits that fill the last byte are left.
    pub fn only_fill_left(&self) -> bool {
        let used = self.at.div_ceil(8);
        let fill = 8 * used - self.at;
        used == self.block.len() && self.block[used - 1] & ((1u16 << fill) - 1) as u8 == 0
    }
}

/// Writes the fields of a block one after another.
#[derive(Default)]
pub struct BitWriter {
    block: Vec<u8>,
    pending: u64,
    count: usize,
}

impl BitWriter {
    /// Writes the lowest `width` bits of a value.
    pub fn field(&mut self, width: usize, value: u32) {
        let value = u64::from(value) & ((1 << width) - 1);
        self.pending = self.pending << width | value;
        self.count += width;
        while self.count >= 8 {
            self.count -= 8;
            self.block.push((self.pending >> self.count) as u8);
        }
    }

    /// The block, its last byte filled with zero bits.
    pub fn finish(mut self) -> Vec<u8> {
        self.field((8 - self.count) % 8, 0);
        self.block
    }
}

#[cfg(test)]
mod tests {
    use super::*;

    #[test]
    fn written_fields_are_read_back() {
        let fields = [(4, 9), (24, 0xabcdef), (1, 1), (16, 0), (5, 31), (9, 256), (6, 0)];
        let mut writer = BitWriter::default();
        for (width, value) in fields {
            writer.field(width, value);
        }
        let block = writer.finish();
        assert_eq!(block.len(), 65usize.div_ceil(8));
        let mut reader = BitReader::new(&block);
        for (width, value) in fields {
            assert_eq!(reader.field(width), Some(value));
        }
        assert!(reader.only_fill_left());
        assert_eq!(reader.field(8), None);
        assert_eq!(reader.field(7), Some(0));
    }

    #[test]
    fn fill_is_zero_and_less_than_a_byte() {
        for (block, only_fill) in [(vec![0xf0], true), (vec![0xf1], false), (vec![0xf8], false), (vec![0xf0, 0], false)]
        {
            let mut reader = BitReader::new(&block);
            assert_eq!(reader.field(4), Some(15));
            assert_eq!(reader.only_fill_left(), only_fill, "{block:x?}");
        }
    }
}
