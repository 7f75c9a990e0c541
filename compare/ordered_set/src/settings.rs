//! The numbers of a list: its settings, base and coordinates, and where each word lies.

/// The words 1: header and path.
pub const FIRST_FREE: usize = 4;
pub const HEADER: usize = 5;

/// The words 1: the words of a cell.
pub const KEY: usize = 0;
pub const VALUE: usize = 1;
pub const MARK: usize = 2;
pub const OWED: usize = 3;
pub const LOW: usize = 4;
pub const HIGH: usize = 5;
pub const BEFORE_LINKS: usize = 6;

const MOST_DIMENSIONS: usize = 16;

/// Numbers 1.
pub const MOST_CELLS: usize = 262_144;

#[derive(Clone, Debug, PartialEq)]
pub struct Settings {
    pub dimensions: usize,
    pub largest_key: u32,
    pub cells: usize,
    pub base: u32,
    /// Entry d is b to the power D - d: how many numbers in a row share their first d
    /// coordinates. 64 bits, since b to the power D - 1 is above 32 bits for D = 15.
    blocks: [u64; MOST_DIMENSIONS + 1],
}

/// The words 1: the exact length; the numbers need not be in range.
pub fn exact_length(dimensions: usize, cells: usize) -> usize {
    HEADER + dimensions + cells * (BEFORE_LINKS + dimensions)
}

/// The most cells of a list of that many dimensions which has no more than so many words.
pub fn cells_within(dimensions: usize, words: usize) -> usize {
    (words - HEADER - dimensions) / (BEFORE_LINKS + dimensions)
}

/// Numbers 3.
pub fn base(dimensions: usize, largest_key: u32) -> u32 {
    // 1 to any power is not above K, and 65,536 to the power 2 is.
    let (mut not_above, mut above) = (1, 65_536);
    while above - not_above > 1 {
        let middle = (above + not_above) / 2;
        if power_is_above(middle, dimensions, largest_key) {
            above = middle;
        } else {
            not_above = middle;
        }
    }
    above
}

fn power_is_above(base: u32, dimensions: usize, largest_key: u32) -> bool {
    let mut power = 1u64;
    (0..dimensions).any(|_| {
        power *= u64::from(base);
        power > u64::from(largest_key)
    })
}

impl Settings {
    /// Numbers 1.
    pub fn new(dimensions: u32, largest_key: u32, cells: u32) -> Option<Settings> {
        let (dimensions, cells) = (dimensions as usize, cells as usize);
        let in_range =
            (2..=MOST_DIMENSIONS).contains(&dimensions) && (3..=MOST_CELLS).contains(&cells);
        if !in_range || largest_key == 0 {
            return None;
        }
        let base = base(dimensions, largest_key);
        let mut blocks = [1; MOST_DIMENSIONS + 1];
        for d in (0..dimensions).rev() {
            blocks[d] = blocks[d + 1] * u64::from(base);
        }
        Some(Settings { dimensions, largest_key, cells, base, blocks })
    }

    pub fn length(&self) -> usize {
        exact_length(self.dimensions, self.cells)
    }

    /// Numbers 5.
    pub fn coordinate(&self, key: u32, d: usize) -> u32 {
        (u64::from(key) / self.blocks[d + 1] % u64::from(self.base)) as u32
    }

    /// How many leading coordinates two keys share.
    pub fn shared(&self, x: u32, y: u32) -> usize {
        let leading = |key: u32, d: usize| u64::from(key) / self.blocks[d + 1];
        (0..self.dimensions).take_while(|&d| leading(x, d) == leading(y, d)).count()
    }

    /// The least number that shares the first n coordinates with the key.
    pub fn least_sharing(&self, key: u32, n: usize) -> u32 {
        (u64::from(key) / self.blocks[n] * self.blocks[n]) as u32
    }

    /// The least number above all that share the first n coordinates with the key.
    pub fn above_sharing(&self, key: u32, n: usize) -> u64 {
        (u64::from(key) / self.blocks[n] + 1) * self.blocks[n]
    }

    /// The greatest K of the same base.
    pub fn greatest_of_base(&self) -> u32 {
        u32::try_from(self.blocks[0] - 1).unwrap_or(u32::MAX)
    }

    pub fn path_word(&self, d: usize) -> usize {
        HEADER + d
    }

    /// A word of a cell, counted from its first.
    pub fn word(&self, cell: u32, field: usize) -> usize {
        HEADER + self.dimensions + cell as usize * self.cell_length() + field
    }

    pub fn link_word(&self, cell: u32, d: usize) -> usize {
        self.word(cell, BEFORE_LINKS + d)
    }

    pub fn cell_length(&self) -> usize {
        BEFORE_LINKS + self.dimensions
    }
}
