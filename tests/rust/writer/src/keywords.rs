//! Keywords: TableRecords of all kinds (Note 260, sections 2.1 and 2.4), faults in
//! them, and questions about them.

pub mod cases;
pub mod faults;
pub mod fields;
pub mod generate;
pub mod paths;
pub mod record;
pub mod sample;
