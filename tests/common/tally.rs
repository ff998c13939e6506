//! Counts comparisons, prints the first differences, and keeps the smallest input that has one.

#[derive(Default)]
pub struct Tally {
    pub compared: u64,
    pub different: u64,
    /// Of those compared, the ones with no counterpart in Rust: a refusal, or a NaN whose pattern document 01 names.
    pub by_rule: u64,
    smallest: Option<Vec<u8>>,
}

impl Tally {
    #[inline]
    pub fn check(&mut self, same: bool, what: impl FnOnce() -> String) {
        self.compared += 1;
        if !same {
            self.different += 1;
            if self.different <= 5 {
                println!("difference: {}", what());
            }
        }
    }

    #[inline]
    pub fn check_rule(&mut self, same: bool, what: impl FnOnce() -> String) {
        self.by_rule += 1;
        self.check(same, what);
    }

    /// An input, and the difference that it shows.
    pub fn check_input(&mut self, input: &[u8], result: Result<(), String>, what: impl FnOnce() -> String) {
        if result.is_err() && self.smallest.as_ref().is_none_or(|s| input.len() < s.len()) {
            self.smallest = Some(input.to_vec());
        }
        self.check(result.is_ok(), || format!("{} ({} bytes): {}", what(), input.len(), result.unwrap_err()));
    }

    pub fn and(self, other: Tally) -> Tally {
        Tally {
            compared: self.compared + other.compared,
            different: self.different + other.different,
            by_rule: self.by_rule + other.by_rule,
            smallest: self.smallest.into_iter().chain(other.smallest).min_by_key(Vec::len),
        }
    }

    /// Puts the smallest input that has a difference to this path, and says so; `what` it is follows on the test's name.
    pub fn keep_smallest(&self, what: &str, path: &str) {
        if let Some(input) = &self.smallest {
            std::fs::write(path, input).expect("a place for the input");
            println!("{what} with a difference, {} bytes, is in {path}", input.len());
        }
    }
}
