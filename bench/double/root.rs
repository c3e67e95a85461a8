//! Where a rising function is 0.

/// To how many mm levels are found: the grid unit of the report.
pub const GRID: f64 = 1.0 / 1024.0;

/// How a level is searched for.
#[derive(Clone, Copy, PartialEq)]
pub enum Search {
    /// By halving an interval.
    Halving,
    /// By Newton's steps from a start, and by halving where a step leaves the interval.
    Newton,
}

impl Search {
    /// The place in an interval where a rising function, which answers its value and its slope, is 0, to a grid unit.
    pub fn root(self, low: f64, high: f64, start: f64, mut value: impl FnMut(f64) -> (f64, f64)) -> f64 {
        let (mut low, mut high) = (low, high);
        let mut at = if self == Search::Newton && low < start && start < high { start } else { (low + high) / 2.0 };
        while high - low > GRID {
            let (value, slope) = value(at);
            if value < 0.0 {
                low = at;
            } else {
                high = at;
            }
            let next = at - value / slope;
            if self == Search::Halving || !(low <= next && next <= high) {
                at = (low + high) / 2.0;
            } else if (next - at).abs() < GRID / 2.0 {
                return next;
            } else {
                at = next;
            }
        }
        (low + high) / 2.0
    }
}
