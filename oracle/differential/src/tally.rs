//! How many were compared, of which sort, and how many differ.

use std::collections::BTreeMap;
use std::fmt;

pub struct Tally {
    name: &'static str,
    compared: u64,
    differ: u64,
    sorts: BTreeMap<&'static str, u64>,
    first: Option<String>,
}

impl Tally {
    pub fn new(name: &'static str) -> Self {
        Self { name, compared: 0, differ: 0, sorts: BTreeMap::new(), first: None }
    }

    /// One more of a sort.
    pub fn note(&mut self, sort: &'static str) {
        *self.sorts.entry(sort).or_default() += 1;
    }

    /// One more, equal or not; the first that is not is kept as it is shown.
    pub fn add(&mut self, equal: bool, show: impl FnOnce() -> String) {
        self.compared += 1;
        if !equal {
            self.differ += 1;
            self.first.get_or_insert_with(show);
        }
    }

    pub fn differs(&self) -> bool {
        self.differ > 0
    }
}

impl fmt::Display for Tally {
    fn fmt(&self, f: &mut fmt::Formatter<'_>) -> fmt::Result {
        writeln!(f, "{}: {} compared, {} differ", self.name, self.compared, self.differ)?;
        for (sort, count) in &self.sorts {
            writeln!(f, "  {count} {sort}")?;
        }
        if let Some(first) = &self.first {
            writeln!(f, "  the first that differs: {first}")?;
        }
        Ok(())
    }
}
