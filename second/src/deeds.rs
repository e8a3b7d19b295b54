//! How often frames did what, for the coverage of both comparisons.

use std::fmt;

use crate::receiver::Did;

#[derive(Clone, Copy, Debug, Default)]
pub struct Deeds {
    counts: [u64; Did::ALL.len()],
}

impl Deeds {
    pub fn count(&mut self, did: Did) {
        self.counts[did.number() - 1] += 1;
    }

    fn all(&self) -> impl Iterator<Item = (Did, u64)> {
        Did::ALL.into_iter().zip(self.counts)
    }

    /// What no frame did.
    pub fn missing(&self) -> Vec<String> {
        self.all().filter(|(_, count)| *count == 0).map(|(did, _)| format!("no frame did: {}", did.word())).collect()
    }
}

impl fmt::Display for Deeds {
    fn fmt(&self, f: &mut fmt::Formatter) -> fmt::Result {
        write!(f, "  frames that did:")?;
        for (did, count) in self.all() {
            write!(f, "  {} {count}", did.word())?;
        }
        writeln!(f)
    }
}
