//! A writer of good and faulty `table.dat` files, and sets of request lines
//! about them and about type numbers.
//!
//! It knows the format from the scope document (whose rules docs/RULES.md
//! states) and Casacore Note 260 on its own and
//! shares nothing with the model, so that one does not hide the other's
//! mistakes. Everything pseudo random comes from fixed seeds.

pub mod bucket_faults;
pub mod buckets;
pub mod cells;
pub mod contents;
pub mod encode;
pub mod faults;
pub mod fields;
pub mod file_cases;
pub mod generate;
pub mod hex;
pub mod incremental;
pub mod info;
pub mod info_faults;
pub mod keywords;
pub mod large_files;
pub mod layout;
pub mod lean;
pub mod looks;
pub mod objects;
pub mod one_bucket;
pub mod order;
pub mod questions;
pub mod record;
pub mod rng;
pub mod rows;
pub mod samples;
pub mod sets;
pub mod small_file;
pub mod standard;
pub mod table;
pub mod texts;
pub mod torn;
pub mod type_numbers;
