//! Numbers drawn for tests.

pub struct Drawn(pub u64);

impl Drawn {
    /// A number below that, which is above 0.
    pub fn below(&mut self, below: u64) -> u64 {
        self.0 = self.0.wrapping_mul(6364136223846793005).wrapping_add(1442695040888963407);
        (self.0 >> 33) % below
    }
}
