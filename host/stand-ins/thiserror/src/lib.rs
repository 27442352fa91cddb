//! Stand-in for the crate thiserror: its derive, as far as the published files
//! use it. Only error texts and `From` conversions come from it, and document 01
//! leaves error text out.

pub use derives::Error;
