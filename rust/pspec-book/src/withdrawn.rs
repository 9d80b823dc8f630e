//! Which categories withdraw operations that a plan applies or a rule asks for.

use crate::contents::{bits, Contents};
use crate::names::Names;
use crate::phrases::joined;
use std::collections::BTreeMap;

/// Operations that data do not support, by the category that withdraws them.
#[derive(Clone, Debug, Default, PartialEq, Eq)]
pub struct Withdrawn(BTreeMap<u8, u16>);

impl Withdrawn {
    /// Adds those of a mask that are withdrawn from a data category.
    pub fn add(&mut self, contents: &Contents, category: u8, mask: u16) {
        for k in bits(mask) {
            if let Some(by) = contents.withdrawn_by(category, k) {
                *self.0.entry(by).or_default() |= 1 << k;
            }
        }
    }

    /// In words, as `Street withdraws truncate`, for each category.
    pub fn words(&self, names: &Names) -> Vec<String> {
        let by = |(&by, &mask): (&u8, &u16)| {
            let operations: Vec<String> =
                bits(mask).map(|k| names.operation(k).to_string()).collect();
            let operations = joined(&operations, "and");
            format!("{} withdraws {operations}", names.data[usize::from(by)])
        };
        self.0.iter().map(by).collect()
    }
}
