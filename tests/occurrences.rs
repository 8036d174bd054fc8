//! What happens in lists, counted by its name.

use std::collections::BTreeMap;

#[derive(Default)]
pub struct Occurrences(BTreeMap<&'static str, usize>);

impl Occurrences {
    pub fn count(&mut self, what: &'static str, holds: bool) {
        if holds {
            *self.0.entry(what).or_default() += 1;
        }
    }

    fn of(&self, what: &str) -> usize {
        self.0.get(what).copied().unwrap_or(0)
    }

    pub fn print(&self, all: &[&str]) {
        let all: Vec<String> = all.iter().map(|what| format!("{} {what}", self.of(what))).collect();
        for some in all.chunks(5) {
            println!("in lists: {}", some.join(", "));
        }
    }

    /// Each of this has happened, and nothing else is counted.
    pub fn check_complete(&self, all: &[&str]) {
        for what in all {
            assert!(self.of(what) > 0, "lists have no {what}");
        }
        for what in self.0.keys() {
            assert!(all.contains(what), "{what} do not have to happen");
        }
    }
}
