//! The model, the recount and what the tests share; each test uses its own part of it.
//!
//! The tests take these variables: FULCRUMNEST_LIB (the archive or its directory, else
//! ../target/staticlib), FULCRUMNEST_CALLS (random calls on library and model, else 1,000,000),
//! FULCRUMNEST_MODEL_CALLS (on the model alone, else 300,000), FULCRUMNEST_TIMES (so many times the
//! usual pools) and FULCRUMNEST_SEED (the first seed).
#![allow(dead_code)]

pub mod clean;
pub mod compare;
pub mod damage;
pub mod desk;
#[cfg(fulcrumnest_lib)]
pub mod library;
pub mod model;
pub mod morning;
pub mod mutations;
pub mod names;
pub mod nexts;
pub mod random;
pub mod recount;
pub mod scenarios;
pub mod sequence;
pub mod serials;
pub mod wire;
pub mod xml;
