//! A checker of rewriting derivations, a writer of let expansions and a reader of
//! formulas, independent of the proved library, and the means to compare them with it.

pub mod answer;
pub mod bench;
pub mod bundle;
pub mod check;
pub mod compare;
pub mod compare_links;
pub mod compare_pairs;
pub mod compare_reader;
pub mod compare_skolem;
pub mod compare_writer;
pub mod damage;
pub mod damage_text;
pub mod eval;
pub mod expand;
pub mod fault;
pub mod ffi;
pub mod generate;
pub mod mutants;
pub mod naive;
pub mod naive_expand;
pub mod naive_read;
pub mod padding;
pub mod plot;
pub mod programs;
pub mod read;
pub mod report;
pub mod rng;
pub mod rust_calls;
pub mod set;
pub mod smt;
pub mod tally;
pub mod vectors;
