//! A second lookup and importer, written from the rule (`docs/RULE.md`) alone and sharing nothing with the proved crates.
//! It is naive on purpose: it follows the rule's words step by step, so that a reader can hold one beside the other.
//!
//! The rule: [`features`], [`measures`], [`index`] and [`good`], [`build`], [`upkeep`], [`search`], [`many`], [`frames`],
//! [`lookup`], [`import`], [`importer`].
//! A still more naive check of the search, by the definition of likeness: [`listed`].
//! For comparisons: the line protocols [`protocol`], the inputs [`generate`], the runner [`differ`], and what is wrong
//! on purpose: lookups, [`faults`], imports, [`import_faults`], adds and withdrawals, [`upkeep_faults`], and calls with many queries,
//! [`many_faults`].

pub mod build;
pub mod differ;
pub mod faults;
pub mod features;
pub mod frames;
pub mod generate;
pub mod good;
pub mod import;
pub mod import_faults;
pub mod importer;
pub mod index;
pub mod limits;
pub mod listed;
pub mod lookup;
pub mod many;
pub mod many_faults;
pub mod measures;
pub mod protocol;
pub mod random;
pub mod refusal;
pub mod search;
pub mod upkeep;
pub mod upkeep_faults;
