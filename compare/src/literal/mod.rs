//! The literal planner: docs/ word by word, by brute force. Clarity over speed.
//!
//! Each file follows one document, in the document's order:
//! sheet.rs follows docs/sheet.md, rules.rs docs/rules.md, search.rs docs/search.md,
//! slip.rs docs/slips.md and call.rs docs/c-call.md.

pub mod call;
pub mod rules;
pub mod search;
pub mod sheet;
pub mod slip;

#[cfg(test)]
mod figures;
#[cfg(test)]
mod promise;
