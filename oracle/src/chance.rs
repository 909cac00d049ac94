//! Numbers by chance, the same for the same seed.

/// The seed of every recorded file.
pub const SEED: u64 = 0x5851_f42d_4c95_7f2d;

/// The sum of a seed and bytes, another for nearly all others.
pub fn summed(seed: u64, bytes: impl IntoIterator<Item = u8>) -> u64 {
    bytes.into_iter().fold(seed, |sum, byte| (sum ^ byte as u64).wrapping_mul(0x100_0000_01b3))
}

/// What a program was asked for by its arguments: a number of files, or else the usual one, and a seed.
pub fn asked(files: usize) -> (usize, u64) {
    let mut args = std::env::args().skip(1).map(|arg| arg.parse::<u64>().expect("a number"));
    (args.next().map_or(files, |files| files as usize), args.next().unwrap_or(SEED))
}

/// `plain_heads` is for drafts: with it the head of each application is a name or a theory function, without it any expression.
pub struct Chance { state: u64, pub(crate) plain_heads: bool }

impl Chance {
    /// Seed 0 counts as 1: from 0 there would be zeros only.
    pub fn new(seed: u64) -> Self { Chance { state: seed.max(1), plain_heads: false } }
    pub fn with_plain_heads(seed: u64) -> Self { Chance { plain_heads: true, ..Chance::new(seed) } }

    pub fn below(&mut self, bound: usize) -> usize {
        self.state ^= self.state << 13;
        self.state ^= self.state >> 7;
        self.state ^= self.state << 17;
        (self.state >> 11) as usize % bound
    }
}
