//! Fields of a block's bits, most significant bit first.

/// The fields of a block that the library accepted or wrote, one after another.
pub(crate) struct Fields<'a> {
    block: &'a [u8],
    at: usize,
}

impl<'a> Fields<'a> {
    pub(crate) fn new(block: &'a [u8]) -> Self {
        Self { block, at: 0 }
    }

    /// The next field, of so many bits, 1 to 32.
    pub(crate) fn take(&mut self, width: usize) -> u32 {
        let (first, before) = (self.at / 8, self.at % 8);
        self.at += width;
        let window = match self.block.get(first..first + size_of::<u64>()) {
            Some(bytes) => u64::from_be_bytes(bytes.try_into().expect("eight bytes")),
            None => self.last_window(first),
        };
        (window << before >> (u64::BITS as usize - width)) as u32
    }

    /// The bytes from one on, fewer than eight, with zeros behind them.
    fn last_window(&self, first: usize) -> u64 {
        let mut window = [0; size_of::<u64>()];
        window.iter_mut().zip(&self.block[first..]).for_each(|(to, byte)| *to = *byte);
        u64::from_be_bytes(window)
    }
}

/// As many bits are added to a block at once.
const WORD: usize = 32;

/// Packs fields one after another.
#[derive(Default)]
pub(crate) struct Packer {
    block: Vec<u8>,
    /// The bits that were not added to the block yet, fewer than 32, in the lowest places.
    rest: u64,
    count: usize,
}

impl Packer {
    /// Packs in the memory of another block.
    pub(crate) fn again(mut block: Vec<u8>) -> Self {
        block.clear();
        Self { block, rest: 0, count: 0 }
    }

    /// Packs a number that so many bits have room for, at most 32.
    pub(crate) fn put(&mut self, width: usize, value: u32) {
        self.rest = self.rest << width | u64::from(value);
        self.count += width;
        if self.count >= WORD {
            self.count -= WORD;
            self.block.extend_from_slice(&((self.rest >> self.count) as u32).to_be_bytes());
        }
    }

    /// The block, its last byte filled with zero bits.
    pub(crate) fn finish(mut self) -> Vec<u8> {
        let last = ((self.rest << (WORD - self.count)) as u32).to_be_bytes();
        self.block.extend_from_slice(&last[..self.count.div_ceil(8)]);
        self.block
    }
}

#[cfg(test)]
mod tests {
    use super::*;

    #[test]
    fn packed_fields_are_taken_again() {
        let fields = [(4, 5), (5, 25), (7, 96), (1, 1), (16, 65_535), (8, 0), (24, 0xabcdef)];
        let mut packer = Packer::default();
        fields.iter().for_each(|&(width, value)| packer.put(width, value));
        let block = packer.finish();
        assert_eq!(block.len(), 65usize.div_ceil(8));
        let mut taken = Fields::new(&block);
        assert!(fields.iter().all(|&(width, value)| taken.take(width) == value));
        assert_eq!(taken.take(7), 0);
    }
}
