//! The AUTO REFRESHes that a part is owed: the customers' third request.

/// How many may wait.
pub const MOST_OWED: u64 = 8;

/// A count that rises by one at each positive multiple of tREFI and falls by one at an
/// AUTO REFRESH, not below 0.
#[derive(Clone, Copy, Debug, PartialEq, Eq)]
pub struct Owed {
    t_refi: u64,
    /// Where the multiples run from.
    pub from: u64,
    /// The count at the cycle that last lowered it, or at `from`.
    count: u64,
    counted: u64,
}

impl Owed {
    /// None owed, and the multiples run from a cycle.
    pub fn none_at(cycle: u64, t_refi: u64) -> Owed {
        Owed {
            t_refi,
            from: cycle,
            count: 0,
            counted: cycle,
        }
    }

    /// The count at a cycle, before an event there lowers it.
    pub fn at(&self, cycle: u64) -> u64 {
        self.count + self.multiples(cycle) - self.multiples(self.counted)
    }

    pub fn refresh(&mut self, cycle: u64) {
        self.count = self.at(cycle).saturating_sub(1);
        self.counted = cycle;
    }

    /// The first cycle at which more than eight are owed if nothing lowers the count.
    pub fn too_many_from(&self) -> u64 {
        let more = MOST_OWED + 1 - self.count;
        self.from + (self.multiples(self.counted) + more) * self.t_refi
    }

    /// The first multiple after a cycle.
    pub fn next_multiple(&self, cycle: u64) -> u64 {
        self.from + (self.multiples(cycle) + 1) * self.t_refi
    }

    /// The positive multiples up to a cycle.
    fn multiples(&self, cycle: u64) -> u64 {
        (cycle - self.from) / self.t_refi
    }
}
