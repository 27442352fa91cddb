//! The catch-up walk, driven through the exported calls: two units of the library
//! beside the model of 01's walk, and of 02's exchange where both have news. `compare::walk`
//! says what is held against what.

#[path = "walk/both.rs"]
mod both;
#[path = "walk/fixed.rs"]
mod fixed;
#[path = "walk/outside.rs"]
mod outside;
#[path = "walk/random.rs"]
mod random;
