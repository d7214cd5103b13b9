//! Replies that know nothing of a part: refused or not, and any bytes.

use super::bus::Replies;
use crate::rng::Rng;

/// What the bytes of an acknowledged read are.
#[derive(Copy, Clone)]
pub enum Content {
    Any,
    Zero,
    /// Mostly zero, as a wiped tag is.
    Sparse,
}

/// Refuses so many of a hundred transfers.
pub struct Noise {
    pub rng: Rng,
    pub refused: u64,
    pub content: Content,
}

impl Replies for Noise {
    fn reply(&mut self, _: u8, _: &[u8], len: usize) -> Option<Vec<u8>> {
        if self.rng.below(100) < self.refused {
            return None;
        }
        Some((0..len).map(|_| self.byte()).collect())
    }
}

impl Noise {
    fn byte(&mut self) -> u8 {
        match self.content {
            Content::Any => self.rng.byte(),
            Content::Zero => 0,
            Content::Sparse if self.rng.once_in(100) => self.rng.byte(),
            Content::Sparse => 0,
        }
    }
}
