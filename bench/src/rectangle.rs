//! The rectangle of a block's shades, for the blockwise baseline.

/// Lowest and highest of each coordinate; the third is for the new card.
pub struct Rectangle {
    low: [i32; 3],
    high: [i32; 3],
}

impl Rectangle {
    pub fn of<const W: usize>(rows: &[i32]) -> Rectangle {
        let mut sides = Rectangle {
            low: [i32::MAX; 3],
            high: [i32::MIN; 3],
        };
        for row in rows.chunks_exact(W) {
            for i in 0..W - 2 {
                sides.low[i] = sides.low[i].min(row[i + 2]);
                sides.high[i] = sides.high[i].max(row[i + 2]);
            }
        }
        sides
    }

    /// The square of how far apart two lie, each gap lowered by the tolerances.
    #[inline]
    fn square_to<const W: usize>(&self, other: &Rectangle, tolerance: i32) -> i32 {
        let gap = |i: usize| {
            let (above, below) = (other.low[i] - self.high[i], self.low[i] - other.high[i]);
            (above.max(below) - tolerance).max(0)
        };
        (0..W - 2).map(|i| gap(i) * gap(i)).sum()
    }

    /// Whether a block lies farther off than the radius, whose square is given. Where its first row does not, it does not.
    #[inline]
    pub fn is_far<const W: usize>(&self, block: &[i32], square: i32, tolerance: i32) -> bool {
        let far = |rows: &[i32]| self.square_to::<W>(&Rectangle::of::<W>(rows), tolerance) > square;
        far(&block[..W]) && (block.len() == W || far(block))
    }
}
