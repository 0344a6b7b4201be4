//! Bytes that are lent between guard bytes, logs and tables.

use super::{guarded, GUARD};

/// What is left of the bytes that were lent, their guard bytes with them.
pub(super) struct Lent {
    front: usize,
    bytes: Vec<u8>,
}

impl Lent {
    pub(super) fn new(bytes: &[u8], front: usize) -> Lent {
        Lent {
            front,
            bytes: guarded(bytes, front),
        }
    }

    pub(super) fn bytes(&mut self) -> &mut [u8] {
        let end = self.bytes.len() - GUARD;
        &mut self.bytes[self.front..end]
    }

    /// Whether these bytes stand there now, and the guard bytes are as they were.
    pub(super) fn is(&self, bytes: &[u8]) -> bool {
        self.bytes == guarded(bytes, self.front)
    }
}
