//! Bytes that are lent to the port, between guards that it must not touch.

pub const GUARD: usize = 64;
const GUARD_FILL: u8 = 0xc3;

#[derive(Default)]
pub struct Lent {
    block: Vec<u8>,
    from: usize,
    len: usize,
}

impl Lent {
    /// `len` bytes of `fill`, at an address that is `shift` (0 to 15) past what the block begins with.
    pub fn lend(&mut self, len: usize, fill: u8, shift: usize) -> &mut [u8] {
        let all = len + 2 * GUARD + 16;
        if self.block.len() < all {
            self.block.resize(all, 0);
        }
        (self.from, self.len) = (GUARD + shift, len);
        let (from, to) = (self.from, self.from + len);
        self.block[from - GUARD..from].fill(GUARD_FILL);
        self.block[to..to + GUARD].fill(GUARD_FILL);
        self.block[from..to].fill(fill);
        &mut self.block[from..to]
    }

    pub fn bytes(&self) -> &[u8] {
        &self.block[self.from..self.from + self.len]
    }

    pub fn guarded(&self) -> bool {
        let to = self.from + self.len;
        only(&self.block[self.from - GUARD..self.from], GUARD_FILL) && only(&self.block[to..to + GUARD], GUARD_FILL)
    }
}

/// Whether every byte is this one. In blocks, so that a large area takes little time.
pub fn only(bytes: &[u8], byte: u8) -> bool {
    bytes.chunks(4_096).all(|c| c.iter().fold(0, |found, b| found | (b ^ byte)) == 0)
}
