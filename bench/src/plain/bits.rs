//! Fields packed most significant bit first.

/// The field of `width` bits, at most 32, at bit `at`.
#[inline]
pub fn field(file: &[u8], at: usize, width: u32) -> u64 {
    let first = at / 8;
    let window = match file.get(first..first + 8) {
        Some(bytes) => u64::from_be_bytes(bytes.try_into().unwrap()),
        None => file[first..].iter().enumerate().fold(0, |sum, (i, &byte)| sum | u64::from(byte) << (56 - 8 * i)),
    };
    window << (at % 8) >> (64 - width)
}

/// The fields of `width` bits from bit `at` on.
pub fn fields(file: &[u8], at: usize, width: u32, count: usize) -> impl Iterator<Item = u64> + '_ {
    (0..count).map(move |i| field(file, at + i * width as usize, width))
}

/// Whether the bits from bit `at` to the end of the byte are zero.
pub fn padding_is_zero(file: &[u8], at: usize) -> bool {
    at.is_multiple_of(8) || file[at / 8] & (0xff >> (at % 8)) == 0
}

/// Fills a slice bit by bit from its front.
pub struct Writer<'a> {
    file: &'a mut [u8],
    at: usize,
    held: u32,
    bits: u64,
}

impl<'a> Writer<'a> {
    pub fn new(file: &'a mut [u8]) -> Self {
        Writer { file, at: 0, held: 0, bits: 0 }
    }

    /// `width` is at most 32; four bytes leave at once as soon as they are full.
    #[inline]
    pub fn put(&mut self, value: u64, width: u32) {
        self.bits = self.bits << width | value;
        self.held += width;
        if self.held >= 32 {
            self.held -= 32;
            let word = (self.bits >> self.held) as u32;
            self.file[self.at..self.at + 4].copy_from_slice(&word.to_be_bytes());
            self.at += 4;
        }
    }

    /// Zero bits to the byte's end, and the bytes that are held.
    pub fn finish(mut self) {
        while self.held > 0 {
            let byte = if self.held >= 8 { self.bits >> (self.held - 8) } else { self.bits << (8 - self.held) };
            self.file[self.at] = byte as u8;
            self.at += 1;
            self.held = self.held.saturating_sub(8);
        }
    }
}
