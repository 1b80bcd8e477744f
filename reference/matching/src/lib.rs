//! Matches the proved bench and its members with the reference, which was written from documents 01 and 02 alone.
//!
//! Each comparison takes the implementation under test as an argument, so that a wrong one can be passed to show that
//! it is found.

pub mod arguments;
pub mod crashes;
pub mod damage;
pub mod demands;
pub mod files;
pub mod findings;
pub mod generate;
pub mod limits;
pub mod members;
pub mod outcomes;
pub mod plants;
pub mod program;
pub mod proved;
pub mod random;
pub mod reads;
pub mod runs;
pub mod silent;
pub mod small;
pub mod summary;
pub mod tables;
pub mod texts;
pub mod trips;
pub mod whole;
pub mod whys;
pub mod writes;
pub mod wrong;
pub mod wrong_outcomes;
pub mod wrong_whys;
