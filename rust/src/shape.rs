//! How large a pool is: its counts, their limits, and the bytes that it asks.

/// Bytes of one buffer, and the most that pullup and show take.
pub const BUFFER_LENGTH: usize = 512;

/// How many buffers, pieces and slips a pool has; they stay as they are until another open.
#[derive(Clone, Copy, Debug, PartialEq, Eq, Hash)]
pub struct Shape {
    /// Buffers of 512 bytes, 1 to 1,024: how much can be stored.
    pub buffers: u16,
    /// Pieces, 1 to 2,048: into how many stretches it can be cut.
    pub pieces: u16,
    /// Slips, 1 to 256: how many chains can be held at once.
    pub slips: u16,
}

impl Shape {
    /// The largest pool.
    pub const MOST: Shape = Shape {
        buffers: 1_024,
        pieces: 2_048,
        slips: 256,
    };

    /// Whether every count is at least 1 and at most its limit.
    ///
    /// ```
    /// use fulcrumnest::Shape;
    ///
    /// assert!(Shape::MOST.in_range());
    /// assert!(!Shape { buffers: 4, pieces: 6, slips: 257 }.in_range());
    /// ```
    pub const fn in_range(self) -> bool {
        1 <= self.buffers
            && self.buffers <= Shape::MOST.buffers
            && 1 <= self.pieces
            && self.pieces <= Shape::MOST.pieces
            && 1 <= self.slips
            && self.slips <= Shape::MOST.slips
    }
}

/// The exact length of a pool of this shape: 11 bytes, 4 a slip, 10 a piece and 2 a buffer.
///
/// ```
/// use fulcrumnest::{pool_length, Shape};
///
/// const SHAPE: Shape = Shape { buffers: 4, pieces: 6, slips: 4 };
/// let pool = [0; pool_length(SHAPE)];
/// assert_eq!(pool.len(), 95);
/// ```
pub const fn pool_length(shape: Shape) -> usize {
    11 + 4 * shape.slips as usize + 10 * shape.pieces as usize + 2 * shape.buffers as usize
}

/// The exact length of the storage of so many buffers.
///
/// ```
/// assert_eq!(fulcrumnest::storage_length(4), 2048);
/// ```
pub const fn storage_length(buffers: u16) -> usize {
    BUFFER_LENGTH * buffers as usize
}
