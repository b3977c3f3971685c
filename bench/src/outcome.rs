//! What a join gives, and what it took.

#[derive(Clone, Debug, PartialEq, Eq)]
pub struct Outcome {
    /// The list's sums, best first.
    pub sums: Vec<u32>,
    /// Field rows and trim rows read.
    pub depths: [u32; 2],
    /// Pairs whose distance was looked at; 0 where nobody counts them.
    pub tests: u64,
    /// Block pairs joined; 0 where there are no blocks.
    pub joined: u64,
}

impl Outcome {
    pub fn deepest(&self) -> u32 {
        self.depths[0].max(self.depths[1])
    }
}
