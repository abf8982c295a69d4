//! Compares the library's five C functions with the reference, call by call and byte by byte.

pub mod compare;
pub mod damage;
pub mod damage_directory;
pub mod expect;
pub mod lent;
pub mod library;
pub mod lists;
pub mod memory;
pub mod random;
pub mod record;
pub mod report;
pub mod streams;
pub mod sweep;
