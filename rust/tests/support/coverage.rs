//! What came up, and how often: a test that never met a thing says nothing about it.

use std::collections::BTreeMap;

#[derive(Default)]
pub struct Coverage {
    met: BTreeMap<Met, u64>,
    /// How many calls of the library were tried, and how many of them were not refused.
    pub calls: u64,
    pub successes: u64,
}

/// A thing that can come up: a heading, and what under it.
pub type Met = (String, String);

/// How often at least a run has to meet each thing it should.
const AT_LEAST: u64 = 20;

impl Coverage {
    /// Counts a call, and with it what was put in that has a higher number than the answer. The
    /// sizes are the numbers of blocks, groups and links.
    pub fn note_answer(&mut self, answer: u64, sizes: [u64; 3], put_in: &[u64]) {
        self.calls += 1;
        let number = answer % 256;
        if number == 0 {
            self.successes += 1;
        } else {
            self.count(refusal(answer, sizes));
            for &other in put_in.iter().filter(|&&other| other > number) {
                self.count(though(number, other));
            }
        }
    }

    pub fn count(&mut self, what: Met) {
        *self.met.entry(what).or_insert(0) += 1;
    }

    pub fn add(&mut self, other: Coverage) {
        self.calls += other.calls;
        self.successes += other.successes;
        for (what, times) in other.met {
            *self.met.entry(what).or_insert(0) += times;
        }
    }

    /// A line for each heading.
    pub fn print(&self) {
        let mut lines: BTreeMap<&str, Vec<String>> = BTreeMap::new();
        for ((heading, what), times) in &self.met {
            let line = lines.entry(heading).or_default();
            line.push(format!("{}: {}", what.trim(), times));
        }
        for (heading, line) in lines {
            println!("{} | {}", heading, line.join(", "));
        }
    }

    /// Panics where something that has to come up didn't, or hardly, or where something came up
    /// that isn't wanted, as a refusal at a place that the table doesn't give it.
    pub fn assert_complete(&self, wanted: &[Met]) {
        for what in wanted {
            let times = self.met.get(what).copied().unwrap_or(0);
            assert!(
                times >= AT_LEAST,
                "came up {} times only: {:?}",
                times,
                what
            );
        }
        for what in self.met.keys() {
            assert!(wanted.contains(what), "shouldn't come up: {:?}", what);
        }
    }
}

/// A refusal, and where its place stands among those it could have had.
pub fn refused(number: u64, place: &str) -> Met {
    (format!("refused {:>2}", number), place.to_string())
}

/// A refusal though a fault with a higher number was put in too.
pub fn though(number: u64, other: u64) -> Met {
    (
        format!("refused {:>2} though also", number),
        format!("{:>2}", other),
    )
}

/// How long a lent list was.
pub fn lent(list: &str, length: usize) -> Met {
    (format!("bytes of {} lent", list), format!("{:>5}", length))
}

/// Refusals at the first, a middle and the last of its places.
pub fn refused_at_each(number: u64, sort: &str) -> [Met; 3] {
    ["first", "middle", "last"].map(|place| refused(number, &format!("{} {}", place, sort)))
}

/// The refusal that an answer says.
fn refusal(answer: u64, sizes: [u64; 3]) -> Met {
    let (number, sort, place) = (answer % 256, answer >> 8 & 255, answer >> 16);
    if sort == 0 {
        return refused(number, "nothing");
    }
    let name = ["block", "group", "link"][sort as usize - 1];
    // Block 0 has a number of its own, and the first link has none before it.
    let first = u64::from(number == 6 || number == 10);
    let which = if place == first {
        "first"
    } else if place == sizes[sort as usize - 1] - 1 {
        "last"
    } else {
        "middle"
    };
    refused(number, &format!("{} {}", which, name))
}
