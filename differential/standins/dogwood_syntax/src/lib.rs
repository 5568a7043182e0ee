//! Stands in for upstream's `dogwood_syntax`, of which only the two types that macros/mod.rs names are here.
//! Upstream's own `NodeBudget` is not among the files; document 01 says what it does ("Budget (added)").

/// The limits a policy set was parsed under. Upstream's has more fields; macros/mod.rs reads these two.
pub struct ParseOptions {
    pub max_nodes: usize,
    pub max_depth: usize,
}

impl Default for ParseOptions {
    fn default() -> Self {
        ParseOptions { max_nodes: usize::MAX, max_depth: usize::MAX }
    }
}

/// A charge that would take the sum above the limit.
#[derive(Debug)]
pub struct Exceeded;

/// The sum of charges. A charge that would take it above the limit is refused and not added.
///
/// For the comparison it can also be told to refuse every charge after a number of them
/// ([`NodeBudget::stop_after`]): so upstream is halted at a place that document 01 refuses and upstream does not.
pub struct NodeBudget {
    limit: usize,
    charged: usize,
    charges: usize,
    most_charges: usize,
    halted_at: Option<usize>,
    marks: Vec<usize>,
}

/// A charge of this many nodes and more is kept: no tree is so large, so it marks what it was made for.
pub const MARK: usize = 1 << 40;

impl NodeBudget {
    pub fn new(limit: usize) -> Self {
        NodeBudget { limit, charged: 0, charges: 0, most_charges: usize::MAX, halted_at: None, marks: Vec::new() }
    }

    pub fn charge(&mut self, n: usize) -> Result<(), Exceeded> {
        if self.charges >= self.most_charges {
            self.halted_at = Some(n);
            return Err(Exceeded);
        }
        match self.charged.checked_add(n) {
            Some(sum) if sum <= self.limit => {
                if n >= MARK {
                    self.marks.push(n);
                }
                self.charged = sum;
                self.charges += 1;
                Ok(())
            }
            _ => Err(Exceeded),
        }
    }

    pub fn limit(&self) -> usize {
        self.limit
    }

    /// The sum of the charges that were made.
    pub fn charged(&self) -> usize {
        self.charged
    }

    /// How many charges were made.
    pub fn charges(&self) -> usize {
        self.charges
    }

    /// The charges that were marks, in their order.
    pub fn marks(&self) -> &[usize] {
        &self.marks
    }

    /// Refuse every charge after the first `most`.
    pub fn stop_after(&mut self, most: usize) {
        self.most_charges = most;
    }

    /// The charge that `stop_after` refused, if one was.
    pub fn halted_at(&self) -> Option<usize> {
        self.halted_at
    }
}
