//! Memory that is lent to both sides with the same bytes in it, and compared byte for byte afterwards.

use crate::rng::Rng;

/// Bytes before and after the lent part that neither side may touch.
const GUARD: usize = 64;

pub struct Lent {
    name: &'static str,
    before: Vec<u8>,
    rattle: Vec<u8>,
    rust: Vec<u8>,
    len: usize,
}

impl Lent {
    /// Room for `most` bytes, with any bytes in it and around it.
    pub fn new(name: &'static str, most: usize, rng: &mut Rng) -> Lent {
        let mut before = vec![0; most + 2 * GUARD];
        rng.fill(&mut before);
        Lent { name, rattle: before.clone(), rust: before.clone(), before, len: 0 }
    }

    /// Lends the first `len` bytes, with what stands there.
    fn lend(&mut self, len: usize) {
        self.len = len;
        let end = self.end();
        self.before[..end].copy_from_slice(&self.rust[..end]);
    }

    /// Lends `len` bytes of any values.
    pub fn lend_random(&mut self, len: usize, rng: &mut Rng) {
        self.len = len;
        rng.fill(&mut self.before[GUARD..GUARD + len]);
        self.set_both();
    }

    /// Lends these bytes.
    pub fn lend_bytes(&mut self, bytes: &[u8]) {
        self.len = bytes.len();
        self.before[GUARD..GUARD + bytes.len()].copy_from_slice(bytes);
        self.set_both();
    }

    /// Lends these bytes or, where there are none, the first `len` with what stands there.
    pub fn lend_or_keep(&mut self, bytes: Option<&[u8]>, len: usize) {
        match bytes {
            Some(bytes) => self.lend_bytes(bytes),
            None => self.lend(len),
        }
    }

    /// Puts what is lent into both sides, and notes what stands after it.
    fn set_both(&mut self) {
        let lent = GUARD..GUARD + self.len;
        let after = lent.end..self.end();
        self.before[after.clone()].copy_from_slice(&self.rust[after]);
        self.rattle[lent.clone()].copy_from_slice(&self.before[lent.clone()]);
        self.rust[lent.clone()].copy_from_slice(&self.before[lent]);
    }

    fn end(&self) -> usize {
        GUARD + self.len + GUARD
    }

    pub fn rattle(&mut self) -> &mut [u8] {
        &mut self.rattle[GUARD..GUARD + self.len]
    }

    pub fn rust(&mut self) -> &mut [u8] {
        &mut self.rust[GUARD..GUARD + self.len]
    }

    /// What was lent, as it was before the call.
    pub fn before(&self) -> &[u8] {
        &self.before[GUARD..GUARD + self.len]
    }

    /// The same bytes as the model left them.
    pub fn after(&self) -> &[u8] {
        &self.rust[GUARD..GUARD + self.len]
    }

    /// Whether both sides left the same bytes, in what was lent and around it.
    pub fn same(&self) -> bool {
        self.rattle[..self.end()] == self.rust[..self.end()]
    }

    /// Whether what was lent is as it was before the call.
    pub fn unchanged(&self) -> bool {
        self.rust[..self.end()] == self.before[..self.end()]
    }

    /// Says what was lent and where the two sides differ, or for a refusal where it changed, and
    /// makes the sides equal again.
    pub fn tell(&mut self, refused: bool) -> String {
        const SHOWN: usize = 80;
        let lent = &self.before[GUARD..GUARD + self.len];
        let mut told = format!("\n    {}, {} bytes", self.name, self.len);
        if self.len <= SHOWN {
            told += &format!(": {lent:02x?}");
        }
        let wrong =
            |i: &usize| self.rattle[*i] != self.rust[*i] || refused && self.rust[*i] != self.before[*i];
        for i in (0..self.end()).filter(wrong).take(8) {
            let place = i as isize - GUARD as isize;
            let (before, rattle, rust) = (self.before[i], self.rattle[i], self.rust[i]);
            told += &format!("\n      at {place}: {before:02x} before, Rattle {rattle:02x}, Rust {rust:02x}");
        }
        let end = self.end();
        self.rattle[..end].copy_from_slice(&self.rust[..end]);
        told
    }
}
