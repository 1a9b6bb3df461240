//! What was seen: how many answers of each kind, and the differences.
use crate::strict::Strict;
use bench::{Table, View};
use std::collections::BTreeMap;

#[derive(Default)]
pub struct Tally {
    pub counts: BTreeMap<(String, String), u64>,
    /// What the inputs were like: these are no answers.
    pub inputs: BTreeMap<(String, String), u64>,
    /// Answers of the Rust.
    pub asked: u64,
    /// Answers under rule two, and under numbers that are no rule, held against the plain reader alone.
    pub two: u64,
    pub no_rule: u64,
    /// Entries that the Rust's walk lists in tables of its own, sought under both rules; and how many of them rule two alone finds.
    pub listed: u64,
    pub two_alone: u64,
    /// Answers of the limits loader by their number, all held against the plain loader; how many of them the Rust's parts were asked for, how many are of entries that
    /// the Rust's walk lists, and how many differ.
    pub limits: BTreeMap<u32, u64>,
    pub limits_asked: u64,
    pub limits_listed: u64,
    pub limits_wrong: u64,
    pub strict: Strict,
    /// Tables that were written, or refused.
    pub tables: u64,
    pub plans: u64,
    pub wrong: u64,
}

impl Tally {
    pub fn count(&mut self, what: &str, how: String) {
        *self.counts.entry((what.into(), how)).or_default() += 1;
    }

    pub fn input(&mut self, what: &str, how: &str) {
        *self.inputs.entry((what.into(), how.into())).or_default() += 1;
    }

    pub fn add(&mut self, what: &str, how: &str, more: u64) {
        if more > 0 {
            *self.counts.entry((what.into(), how.into())).or_default() += more;
        }
    }

    /// A question to a reader, and what is said of it.
    pub fn text(&self, v: View, t: Table, asked: &[u8], said: &str) -> String {
        let shown = &v.bytes[..v.bytes.len().min(96)];
        format!("{asked:?} first {} table {t:?} window of {} {shown:?}: {said}", v.first, v.bytes.len())
    }

    pub fn wrong(&mut self, what: &str, text: String) {
        self.wrong += 1;
        if self.wrong <= 20 {
            println!("DIFFERS {what}: {text}");
        }
    }
}
