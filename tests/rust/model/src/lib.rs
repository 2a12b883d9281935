//! An independent model of the questions of docs/RULES.md about Casacore tables,
//! written from the scope document (whose rules RULES.md states) and Note 260
//! alone.
//!
//! A refused question gives a [`Refusal`]: the number of RULES.md 8.1, which has
//! a name in [`refusal`], and the byte at which the blamed field begins.
//! "Note 260" is Casacore Note 260, Table System File Formats.

pub mod aipsio;
mod buckets;
pub mod byte_order;
pub mod data_type;
pub mod element_bits;
pub mod hex;
mod incremental;
pub mod keywords;
pub mod listing;
pub mod looks;
pub mod numbers;
pub mod question;
pub mod refusal;
pub mod request;
mod standard;
pub mod table;

pub use byte_order::ByteOrder;
pub use data_type::DataType;
pub use element_bits::element_bits;
pub use keywords::{Field, Keyword, Scope, field, keyword};
pub use listing::listing;
pub use question::{InBucket, Placed, Plan};
pub use question::{
    check, padded_view, padded_view_by_plan, place, place_by_plan, place_in_bucket, plan, view,
    view_by_plan,
};
pub use refusal::Refusal;
pub use request::answer;
pub use table::{Column, Description, Kind, Manager, column, describe};

// Lengths of 32-bit counts and files above 4 GiB are computed in usize.
const _: () = assert!(usize::BITS >= 64);
