//! The reference model: drawdown around a pumped well, in whole numbers, written from document 01, and from
//! the requests of document 02 that have landed, alone.
//! Numbers are exact (u128 and i128 wherever a product may pass a word); floats follow the written order.

pub mod changes;
pub mod checksum;
pub mod choice;
pub mod choice_text;
pub mod coefficients;
pub mod geometry;
pub mod grid;
pub mod head_loss;
pub mod ledger;
pub mod limiting;
pub mod limits;
pub mod listing;
pub mod logarithm;
pub mod mistake;
pub mod random;
pub mod readings;
pub mod record;
pub mod refusal;
pub mod report;
pub mod scenarios;
pub mod site;
pub mod step;
pub mod text;
pub mod worst;
