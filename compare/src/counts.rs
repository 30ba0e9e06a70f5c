//! Counts of things to meet, told under headings. Everything that can occur
//! must be met, once or as often as it says, and nothing else may be.

use std::collections::{BTreeMap, BTreeSet};
use std::fmt::Display;

/// One thing to meet.
pub trait Countable: Copy + Ord + Display {
    /// Where it is told; things of one heading stand together in order.
    fn heading(&self) -> &'static str;
    /// Everything that can occur.
    fn possible() -> BTreeSet<Self>;
    /// How often it must be met at least.
    fn least(&self) -> u64 {
        1
    }
}

pub struct Counts<T> {
    met: BTreeMap<T, u64>,
}

impl<T> Default for Counts<T> {
    fn default() -> Self {
        Counts {
            met: BTreeMap::new(),
        }
    }
}

impl<T: Countable> Counts<T> {
    pub fn meet(&mut self, thing: T) {
        *self.met.entry(thing).or_default() += 1;
    }

    fn count(&self, thing: &T) -> u64 {
        self.met.get(thing).copied().unwrap_or(0)
    }

    /// What was met less often than it must be.
    pub fn missing(&self) -> Vec<T> {
        let seldom = |thing: &T| self.count(thing) < thing.least();
        T::possible().into_iter().filter(seldom).collect()
    }

    pub fn strangers(&self) -> Vec<T> {
        let possible = T::possible();
        let strange = |thing: &&T| !possible.contains(thing);
        self.met.keys().filter(strange).copied().collect()
    }

    /// All counts, a line for each heading; then what is missing and what
    /// should not be there. True if there is neither.
    pub fn report(&self) -> bool {
        let mut heading = "";
        for thing in &T::possible() {
            let count = self.count(thing);
            if thing.heading() == heading {
                print!(", ");
            } else {
                if !heading.is_empty() {
                    println!();
                }
                heading = thing.heading();
                print!("{heading}: ");
            }
            print!("{thing} = {count}");
        }
        println!();
        let missing = self.missing();
        for thing in &missing {
            let least = thing.least();
            println!("met less than {least} times: {}: {thing}", thing.heading());
        }
        let strangers = self.strangers();
        for thing in &strangers {
            println!("cannot occur: {}: {thing}", thing.heading());
        }
        missing.is_empty() && strangers.is_empty()
    }
}

/// A line of how many were made of each family.
pub fn report_families(title: &str, families: &BTreeMap<&'static str, u64>) {
    let told: Vec<String> = families
        .iter()
        .map(|(name, count)| format!("{name} {count}"))
        .collect();
    println!("{title}: {}", told.join(", "));
}
