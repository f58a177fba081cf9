//! Change request 2026-04: the bad blocks of a drive.

pub const MOST_BAD: usize = 16;

/// The numbers of a record of kind 3, as it has them; none for a drive without such a record.
#[derive(Clone, Copy, PartialEq, Eq, Debug, Default)]
pub struct BadBlocks {
    list: [u64; MOST_BAD],
    count: usize,
}

impl BadBlocks {
    pub const NONE: BadBlocks = BadBlocks { list: [0; MOST_BAD], count: 0 };

    /// The caller has at most sixteen numbers.
    pub fn of(numbers: impl Iterator<Item = u64>) -> BadBlocks {
        let mut bad = BadBlocks::default();
        for number in numbers {
            bad.list[bad.count] = number;
            bad.count += 1;
        }
        bad
    }

    pub fn numbers(&self) -> &[u64] {
        &self.list[..self.count]
    }

    pub fn is_empty(&self) -> bool {
        self.count == 0
    }

    /// Not "a list unsorted, repeated or outside the drive".
    pub fn obey(&self, blocks: u64) -> bool {
        self.numbers().windows(2).all(|pair| pair[0] < pair[1]) && self.numbers().iter().all(|number| *number < blocks)
    }

    /// "the good ones before it": how many of so many blocks from one on come before the first that is bad, all of them if none is.
    pub fn good(&self, start: u64, count: u64) -> u64 {
        let range = start..start + count;
        self.numbers().iter().find(|number| range.contains(number)).map_or(count, |first| first - start)
    }
}
